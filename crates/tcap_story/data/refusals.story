A invoke 1 1 1 10 5000 - -
expect A refused 2 unknown dialogue
A new
A invoke 1 1 1 10 5000 - 0402AA
expect A refused 12 bad parameter
A cancel 1 1
expect A refused 5 no such invocation
