# A made-up organisation of any size, to measure with: for each file its name and its content, a line each.
#
#   mkdir -p big/organization
#   jq -nrc --argjson accounts 50 --argjson roles 200 -f tools/samples/many_accounts.jq |
#     while read -r name && read -r content; do printf '%s\n' "$content" > "big/$name"; done
#   tools/compare_many sets big/sets --organization big/organization big/account-*.json
#
# Each role has an inline policy for what one application needs, one to four managed ones, and each third a boundary. One
# role of 50 may create users, and one of 40 has a policy variable. An account stands in one of five units.

def version: "2012-10-17";
def account: tostring | "1" + "0" * (11 - length) + .;
def word($words): $words[. % ($words | length)];

def managed_names:
  ["arn:aws:iam::aws:policy/ReadOnlyAccess", "arn:aws:iam::aws:policy/CloudWatchLogsFullAccess",
   "arn:aws:iam::aws:policy/PowerUserAccess", "arn:aws:iam::aws:policy/AmazonSSMManagedInstanceCore"];

def services:
  ["acm", "apigateway", "athena", "autoscaling", "backup", "batch", "cloudformation", "cloudfront", "cloudtrail",
   "cloudwatch", "codebuild", "codepipeline", "config", "dynamodb", "ec2", "ecr", "ecs", "eks", "elasticache",
   "elasticloadbalancing", "events", "firehose", "glue", "guardduty", "iam", "kinesis", "kms", "lambda", "logs", "rds",
   "redshift", "route53", "s3", "secretsmanager", "servicediscovery", "sns", "sqs", "ssm", "states", "sts", "tag", "waf"];

def read_only:
  {Version: version, Statement: [{Sid: "ReadOnly", Effect: "Allow", Resource: "*",
    Action: [services[] | "\(.):Get*", "\(.):List*", "\(.):Describe*"]}]};

def power_user:
  {Version: version, Statement: [
    {Effect: "Allow", NotAction: ["iam:*", "organizations:*", "account:*"], Resource: "*"},
    {Effect: "Allow", Action: ["iam:CreateServiceLinkedRole", "iam:DeleteServiceLinkedRole", "iam:ListRoles",
      "organizations:DescribeOrganization", "account:ListRegions"], Resource: "*"}]};

def logs: {Version: version, Statement: [{Effect: "Allow", Action: ["logs:*", "cloudwatch:GenerateQuery"], Resource: "*"}]};

def instance_core:
  {Version: version, Statement: [
    {Effect: "Allow", Action: ["ssm:DescribeAssociation", "ssm:GetDocument", "ssm:GetParameter", "ssm:GetParameters",
      "ssm:PutInventory", "ssm:UpdateInstanceInformation"], Resource: "*"},
    {Effect: "Allow", Action: ["ssmmessages:CreateControlChannel", "ssmmessages:OpenDataChannel"], Resource: "*"},
    {Effect: "Allow", Action: ["ec2messages:GetMessages", "ec2messages:SendReply"], Resource: "*"}]};

def team($account; $number):
  {Version: version, Statement: [
    {Sid: "Objects", Effect: "Allow", Action: ["s3:GetObject", "s3:PutObject", "s3:DeleteObject", "s3:ListBucket"],
     Resource: ["arn:aws:s3:::team\($number)-\($account)", "arn:aws:s3:::team\($number)-\($account)/*"]},
    {Sid: "Keys", Effect: "Allow", Action: ["kms:Decrypt", "kms:GenerateDataKey"],
     Resource: "arn:aws:kms:eu-west-1:\($account):key/*",
     Condition: {StringEquals: {"kms:ViaService": ["s3.eu-west-1.amazonaws.com", "sqs.eu-west-1.amazonaws.com"]}}},
    {Sid: "Plain", Effect: "Deny", Action: "s3:*", Resource: "*", Condition: {Bool: {"aws:SecureTransport": "false"}}}]};

def boundary:
  {Version: version, Statement: [
    {Effect: "Allow", Action: "*", Resource: "*"},
    {Effect: "Deny", Action: ["iam:*User*", "iam:*AccessKey*", "iam:*LoginProfile*", "organizations:*"], Resource: "*"}]};

def application($account; $number):
  {Version: version, Statement: ([
    {Sid: "Tables", Effect: "Allow", Action: ["dynamodb:GetItem", "dynamodb:PutItem", "dynamodb:Query", "dynamodb:UpdateItem"],
     Resource: ["arn:aws:dynamodb:eu-west-1:\($account):table/app\($number)-*",
                "arn:aws:dynamodb:eu-west-1:\($account):table/app\($number)-*/index/*"]},
    {Sid: "Queues", Effect: "Allow", Action: ["sqs:SendMessage", "sqs:ReceiveMessage", "sqs:DeleteMessage"],
     Resource: "arn:aws:sqs:*:\($account):app\($number)-*"},
    {Sid: "Secrets", Effect: "Allow", Action: "secretsmanager:GetSecretValue",
     Resource: "arn:aws:secretsmanager:*:\($account):secret:app\($number)/*"},
    {Sid: "Roles", Effect: "Allow", Action: "iam:PassRole", Resource: "arn:aws:iam::\($account):role/app\($number)-*",
     Condition: {StringEquals: {"iam:PassedToService": ["ecs-tasks.amazonaws.com", "lambda.amazonaws.com"]}}}]
   + (if $number % 50 == 7 then [{Sid: "Users", Effect: "Allow", Action: ["iam:CreateUser", "iam:TagUser"], Resource: "*"}] else [] end)
   + (if $number % 40 == 9 then [{Sid: "Home", Effect: "Allow", Action: "s3:*",
        Resource: "arn:aws:s3:::homes/${aws:PrincipalTag/team}/*"}] else [] end))};

def policy($arn; $document):
  {PolicyName: ($arn | split("/") | last), Arn: $arn, DefaultVersionId: "v1",
   PolicyVersionList: [{Document: $document, VersionId: "v1", IsDefaultVersion: true}]};

def role($account; $number):
  {Path: "/", RoleName: "app\($number)-role", Arn: "arn:aws:iam::\($account):role/app\($number)-role",
   RolePolicyList: [{PolicyName: "app", PolicyDocument: application($account; $number)}],
   AttachedManagedPolicies:
     ([range(0; $number % 4 + 1) | if . == 0 then "arn:aws:iam::\($account):policy/team\($number % 30)"
                                   else $number + . | word(managed_names) end] | unique | map({PolicyArn: .}))}
  + (if $number % 3 == 0 then {PermissionsBoundary: {PermissionsBoundaryArn: "arn:aws:iam::\($account):policy/boundary"}} else {} end);

def account_file($account):
  {UserDetailList: [], GroupDetailList: [],
   RoleDetailList: [range(0; $roles) | role($account; .)],
   Policies: [policy(managed_names[0]; read_only), policy(managed_names[1]; logs), policy(managed_names[2]; power_user),
     policy(managed_names[3]; instance_core), policy("arn:aws:iam::\($account):policy/boundary"; boundary),
     (range(0; 30) | policy("arn:aws:iam::\($account):policy/team\(.)"; team($account; .)))]};

def unit: "ou-ab12-unit\(. % 5)000";
def target($type): {TargetId: ., Type: $type};

def control($id; $targets; $statements):
  "organization/policy-\($id).json",
  {Policy: {PolicySummary: {Id: $id, Type: "SERVICE_CONTROL_POLICY"},
            Content: ({Version: version, Statement: $statements} | tojson)}},
  "organization/targets-\($id).json", {Targets: $targets};

def organization_files:
  [range(0; $accounts) | account] as $all
  | [range(0; 5) | unit] as $units
  | "organization/organization.json", {Organization: {MasterAccountId: "999999999999"}},
    "organization/policies-SERVICE_CONTROL_POLICY.json",
    {Policies: [("p-FullAWSAccess", "p-regions0", "p-audit000", "p-units000") | {Id: .}]},
    control("p-FullAWSAccess"; [("r-ab12" | target("ROOT")), ($units[] | target("ORGANIZATIONAL_UNIT")), ($all[] | target("ACCOUNT"))];
      [{Effect: "Allow", Action: "*", Resource: "*"}]),
    control("p-regions0"; ["r-ab12" | target("ROOT")];
      [{Effect: "Deny", NotAction: ["iam:*", "organizations:*", "route53:*", "sts:*", "support:*"], Resource: "*",
        Condition: {StringNotEquals: {"aws:RequestedRegion": ["eu-central-1", "eu-west-1"]}}}]),
    control("p-audit000"; ["r-ab12" | target("ROOT")];
      [{Effect: "Deny", Action: ["cloudtrail:StopLogging", "cloudtrail:DeleteTrail", "config:Delete*", "guardduty:Delete*"],
        Resource: "*", Condition: {ArnNotLike: {"aws:PrincipalArn": "arn:aws:iam::*:role/audit-admin"}}}]),
    control("p-units000"; [$units[] | target("ORGANIZATIONAL_UNIT")];
      [{Effect: "Deny", Action: ["organizations:LeaveOrganization", "account:*"], Resource: "*"}]),
    ($units[] | "organization/parents-\(.).json", {Parents: [{Id: "r-ab12"}]}),
    (range(0; $accounts) | "organization/parents-\(account).json", {Parents: [{Id: unit}]});

organization_files, (range(0; $accounts) | account | "account-\(.).json", account_file(.))
