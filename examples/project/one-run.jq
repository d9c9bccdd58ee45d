# One run of the many of a merged report, with each result once.
.runs = [{tool: .runs[0].tool, results: ([.runs[].results[]] | unique)}]
