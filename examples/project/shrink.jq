# Keeps the results of a report that the report $now has too.
def key: [.ruleId, (.locations[0].physicalLocation | .artifactLocation.uri, .region.startLine, .region.startColumn)];
(reduce ($now[].runs[].results[] | key | tojson) as $it ({}; .[$it] = true)) as $there
| .runs[].results |= map(select($there[key | tojson]))
