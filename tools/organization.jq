# Which control policies hold for each account of an organisation, for tools/role_set.jq.
#
#   tools/compare_many fetch FOLDER                    asks `aws organizations`, and keeps each answer as a file:
#     organization.json   describe-organization
#     policies-TYPE.json  list-policies of service and of resource control policies
#     policy-ID.json      describe-policy of each of them
#     targets-ID.json     list-targets-for-policy of the same
#     parents-ID.json     list-parents of each account and unit that is a target
#   jq -n -c -f tools/organization.jq FOLDER/*.json > organization.json
#
# It prints {"ManagementAccount", "Accounts": {ACCOUNT: [LEVEL..]}, "Policies": {ID: DOCUMENT}}. The levels go from the root
# to the account, each {"Target", "ServiceControl": [ID..], "ResourceControl": [ID..]}.

# ID of the file that is read, or none
def id($word): input_filename | sub(".*/"; "") | select(startswith($word + "-")) | .[($word | length) + 1:-5];

def whole: if has("NextToken") then error("this file is one page of several: " + input_filename) else . end;

# Each policy that is listed has its two files.
def complete:
  [.[] | .listed[]?] as $listed | [.[] | .policy // empty] as $policies | [.[] | .targets // empty] as $targets
  | (($listed - $policies | map("policy-\(.).json")) + ($listed - $targets | map("targets-\(.).json"))) as $missing
  | if $listed == [] then error("no policies-TYPE.json") elif $missing != [] then error("missing: \($missing | join(", "))") else . end;

# what is attached to which target: {TARGET: [ID..]}
def attached($files; $type):
  [$files[] | select(.policy) | select(.type == $type) | .policy] as $ids
  | reduce ($files[] | select(.targets) | select(.targets as $id | $ids | index($id))) as $file ({};
      reduce $file.ids[] as $target (.; .[$target] += [$file.targets]));

# from the root to the target
def from_root($parents):
  if startswith("r-") then [.]
  else . as $id | ($parents[$id] // error("no parents-\($id).json") | from_root($parents)) + [$id] end;

# Where policies of a type are in use AWS has one at each target, so one that has none is a file that is missing.
def at($attached; $target):
  if $attached == {} then []
  else $attached[$target] // error("no policy of the type is attached to \($target): a file is missing") end;

reduce inputs as $file ([];
  . + [$file | whole
       | if .Organization then {management: .Organization.MasterAccountId}
         elif .Policies then {listed: [.Policies[].Id]}
         elif .Policy then {policy: .Policy.PolicySummary.Id, type: .Policy.PolicySummary.Type, document: (.Policy.Content | fromjson)}
         elif .Targets then {targets: id("targets"), ids: [.Targets[].TargetId], accounts: [.Targets[] | select(.Type == "ACCOUNT") | .TargetId]}
         elif .Parents then {child: id("parents"), parent: .Parents[0].Id}
         else empty end])
| complete as $files
| attached($files; "SERVICE_CONTROL_POLICY") as $service
| attached($files; "RESOURCE_CONTROL_POLICY") as $resource
| ([$files[] | select(.child) | {key: .child, value: .parent}] | from_entries) as $parents
| {ManagementAccount: ([$files[] | .management // empty] | .[0] // error("no organization.json")),
   Accounts:
     ([$files[] | .accounts[]?] | unique
      | map({key: ., value: (from_root($parents) | map({Target: ., ServiceControl: at($service; .), ResourceControl: at($resource; .)}))})
      | from_entries),
   Policies: ([$files[] | select(.policy) | {key: .policy, value: .document}] | from_entries)}
