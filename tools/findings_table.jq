# A Markdown table of findings, for hugbile: a row for each, with its predicates and its request.
#
#   hugbile new-access after.json before.json principal action > found.txt
#   jq -R -s -r -f tools/findings_table.jq found.txt
#
# It reads what `summary`, `reach` and `new-access` print. With `--arg dimensions "principal action"` each predicate has a
# column with that name. With `--argjson rows 50` further rows are left out and counted: a comment on GitHub has room for
# 65,536 characters. A refused or an undecided line is printed as it stands. A certificate behind the findings is left out.

# Code that stands in a cell: between more backticks than it has in a row. A bar is escaped, also in code.
def code:
  ([scan("`+") | length] | max // 0) as $run
  | ("`" * ($run + 1)) as $mark
  | (if test("^`|`$") then "\($mark) \(.) \($mark)" else $mark + . + $mark end)
  | gsub("\\|"; "\\|");

def row: "| " + join(" | ") + " |";

# Predicates stand as JSON writes them, so that none has a line feed.
def cells: fromjson | map(tojson[1:-1] | code);

split("\n")
| (.[0] | capture("^findings: (?<count>[0-9]+)$").count // "0" | tonumber) as $count
| if $count == 0 then .[0] | code
  else
    $ARGS.named.dimensions as $names
    | ($ARGS.named.rows // $count) as $most
    | ([if $names then $names | split(" ")[] else "finding" end] + ["a request"]) as $head
    | ($head | row),
      ($head | map("---") | row),
      (range([$count, $most] | min) as $at
       | .[1 + 2 * $at : 3 + 2 * $at]
       | (.[0] | cells) as $cells
       | (if $names then $cells else [$cells | join(", ")] end) + [.[1] | code] | row),
      if $most < $count then "", "and \($count - $most) more" else empty end
  end
