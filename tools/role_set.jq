# The roles and users of an account as sets of policies, for hugbile.
#
#   aws iam get-account-authorization-details > account.json
#   jq -c --arg role NAME -f tools/role_set.jq account.json > role.json
#   jq -c --arg user NAME -f tools/role_set.jq account.json > user.json
#
# Grants are the inline and the attached policies, of a user those of its groups too. A permissions boundary is a guard.
# With `--slurpfile organization organization.json`, which tools/organization.jq makes, each level of the organisation is
# a guard too: its service control policies. With `--arg sets own-resources` its resource control policies are further
# guards. Then the set is right for resources of the same account alone.
#
# With `--arg sets trust` it makes sets of the trust policies of roles in their place, which say who may assume a role.
# Guards are then the resource control policies alone: a role is a resource of its account.
#
# Without a name it prints three lines for each role and user, with `jq -rc`: its name as ACCOUNT/role/NAME or
# ACCOUNT/user/NAME (ACCOUNT/trust/NAME), the set, and what its documents are, with tabs between, in the order in which refusals count them.
#
# It leaves out policies of other resources and session policies. jq before 1.7 rounds numbers above 2^53.

# the most documents that a set may have
def most_documents: 32;

# Texts with %XX. A byte below 128 is a character; of others the first says how many follow (UTF-8).

def byte:
  def digit: if . > 96 then . - 87 elif . > 64 then . - 55 else . - 48 end;
  explode | (.[0] | digit) * 16 + (.[1] | digit);

def utf8:
  [ foreach .[] as $byte ({left: 0};
      if $byte < 128 then {left: 0, point: $byte}
      elif $byte < 192 then {left: (.left - 1), point: (.point * 64 + $byte - 128)}
      elif $byte < 224 then {left: 1, point: ($byte - 192)}
      elif $byte < 240 then {left: 2, point: ($byte - 224)}
      else {left: 3, point: ($byte - 240)} end;
      select(.left == 0) | .point) ]
  | implode;

def decoded:
  split("%")
  | if any(.[1:][]; .[0:1] > "7") then
      [(.[0] | explode[]), (.[1:][] | (.[0:2] | byte), (.[2:] | explode[]))] | utf8
    else
      [.[0], (.[1:][] | ([.[0:2] | byte] | implode) + .[2:])] | join("")
    end;

# A document: the command line prints it as JSON, the service itself gives it URL-encoded (RFC 3986).
def document:
  if type != "string" then . elif startswith("%") then decoded | fromjson else fromjson end;

# The parts of a set are lists of {name, document}: what a document is, and the document.

def inline_policies($kind; $name):
  [(.RolePolicyList, .UserPolicyList, .GroupPolicyList)[]?
   | {name: "\($kind)/\($name): \(.PolicyName)", document: (.PolicyDocument | document)}];

def managed($policies; $arn):
  {name: $arn, document: ($policies[$arn] // error("no policy in this file: " + $arn))};

def attached_policies($policies):
  [.AttachedManagedPolicies[]?.PolicyArn | managed($policies; .)];

def group_policies($groups; $policies):
  [.GroupList[]? as $name
   | ($groups[$name] // error("no group in this file: " + $name))
   | inline_policies("group"; $name)[], attached_policies($policies)[]];

# a policy that is attached to a user and to its groups counts once
def once: reduce .[] as $part ([]; if any(.[]; .name == $part.name) then . else . + [$part] end);

def grants($kind; $name; $groups; $policies):
  inline_policies($kind; $name) + attached_policies($policies) + group_policies($groups; $policies) | once;

def boundary($policies):
  [.PermissionsBoundary.PermissionsBoundaryArn // empty | [managed($policies; .)]];

# The guards of an organisation: one for each level with policies of the type, from the root to the account. No control
# policy binds the management account or a role that is linked to a service.
def levels($organization; $account; $type):
  if $account == $organization.ManagementAccount or (.Path // "" | startswith("/aws-service-role/")) then []
  else
    ($organization.Accounts[$account] // error("no account in the organisation's files: " + $account))
    | [.[] | .Target as $target | .[$type] | select(length > 0)
       | [.[] | {name: "\(.) at \($target)", document: $organization.Policies[.]}]]
  end;

def control_guards($organization; $account; $types):
  if $organization == null then [] else [$types[] as $type | levels($organization; $account; $type)[]] end;

# Documents of one version as a single one, which says the same where they are pooled. What has other elements stays alone.
def joined:
  def statements: if type == "array" then . else [.] end;
  def is_plain: (.document | type) == "object" and (.document | keys - ["Id", "Statement", "Version"]) == []
    and (.document | has("Statement"));
  ([.[] | select(is_plain)] | group_by(.document.Version)
   | map({name: ([.[].name] | join(" + ")),
          document: ((.[0].document | del(.Id)) + {Statement: [.[].document.Statement | statements[]]})}))
  + [.[] | select(is_plain | not)];

def trust_policy($name):
  [{name: "trust/\($name)", document: (.AssumeRolePolicyDocument | document)}];

def fitting:
  if (.grants | length) + (.guards | map(length) | add // 0) > most_documents
  then .grants |= joined | .guards |= map(joined) else . end;

def set:
  if .guards == [] then [.grants[].document]
  else {Grants: [.grants[].document], Guards: [.guards[] | [.[].document]]} end;

# Names of files are made of these two, so nothing else may stand in them.
def name_of_set($kind; $account; $name):
  if ($account | test("\\A[0-9]{12}\\z")) and ($name | test("\\A[A-Za-z0-9_+=,.@-]{1,128}\\z"))
  then "\($account)/\($kind)/\($name)" else error("no name of IAM: \($account)/\($kind)/\($name)") end;

if .IsTruncated == true or has("NextToken") or has("Marker") then error("this file is one page of several") else . end
| ([.Policies[]? | {key: .Arn, value: (.PolicyVersionList[]? | select(.IsDefaultVersion) | .Document | document)}]
   | from_entries) as $policies
| ([.GroupDetailList[]? | {key: .GroupName, value: .}] | from_entries) as $groups
| ($ARGS.named.organization // [null] | .[0]) as $organization
| $ARGS.named as {$role, $user, $sets}
| ([(.RoleDetailList[]? | {kind: "role", name: .RoleName, entry: .}),
    (.UserDetailList[]? | select($sets != "trust") | {kind: "user", name: .UserName, entry: .})]
   | if $role then map(select(.kind == "role" and .name == $role))
     elif $user then map(select(.kind == "user" and .name == $user)) else . end) as $asked
| if ($role or $user) and ($asked | length) != 1 then error("no \(if $role then "role" else "user" end) in this file: \($role // $user)")
  else $asked[] end
| .kind as $kind | .name as $name
| .entry
| (.Arn | split(":")[4]) as $account
| (if $sets == "trust" then
     {kind: "trust", grants: trust_policy($name), guards: control_guards($organization; $account; ["ResourceControl"])}
   else
     {kind: $kind, grants: grants($kind; $name; $groups; $policies),
      guards: (boundary($policies) + control_guards($organization; $account;
        ["ServiceControl"] + if $sets == "own-resources" then ["ResourceControl"] else [] end))}
   end)
| fitting
| if $role or $user then set
  else name_of_set(.kind; $account; $name), set, ([.grants[].name, .guards[][].name] | join("\t")) end
