# The policies that a Terraform plan changes, a line each: {"address", "attribute", "before", "after"}, for hugbile.
#
#   terraform show -json plan.out > plan.json
#   jq -c -f tools/plan_policies.jq plan.json
#
# `before` and `after` are documents, as `hugbile compare` takes them; where there was or will be none it is a document
# that allows nothing. A policy that is known only after the plan is applied has null as `after`, which is no set, so
# that a comparison refuses it. It looks at the attributes `policy` and `assume_role_policy` of each resource that
# changes. It leaves out data sources, inline_policy blocks, policies that are attached by name or ARN, and how
# several policies of one role act together.

def nothing: {Version: "2012-10-17", Statement: []};

.resource_changes[]
| select(.mode == "managed" and .change.actions != ["no-op"])
| . as $resource
| ("policy", "assume_role_policy") as $attribute
| (.change.before // {})[$attribute] as $before
| (.change.after // {})[$attribute] as $after
| ((.change.after_unknown | objects | .[$attribute]) // false) as $unknown
| select($before != null or $after != null or $unknown == true)
| {
    address: $resource.address,
    attribute: $attribute,
    before: (if $before then ($before | fromjson) else nothing end),
    after: (if $unknown == true then null elif $after then ($after | fromjson) else nothing end)
  }
