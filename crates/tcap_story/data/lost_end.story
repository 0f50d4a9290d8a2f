# An invocation whose result is lost in an End: it lapses.
A new
expect A new 1
A invoke 1 1 1 10 5000 - -
expect A number 1
A begin 1 - -
expect A send A1 62104804000000016c08a10602010102010a
deliver A1
expect B begin 1 context - info -
expect B invoked 1 id 1 linked - op local 10 param -
B last 1 1 10 0401AA
expect B done
B end 1 - -
lose B1
expect nothing
advance 5000
expect A lapsed 1 id 1 number 1
A invoke 1 2 5 10 5000 - -
