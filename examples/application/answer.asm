push 0
push 3
get token
dup
push 4294967295
equal
jumpzero there
halt
label there
push 1000
store
push 0
push 2166136261
label secret
over
push 1000
load
less
jumpzero challenge
over
load
call mix
jump secret
label challenge
swap
pop
push 0
swap
label next
over
length
less
jumpzero tell
over
input
call mix
jump next
label tell
dup
push 16777216
div
emit
dup
push 65536
div
emit
dup
push 256
div
emit
emit
halt
label mix
xor
push 16777619
mul
swap
push 1
add
swap
return
