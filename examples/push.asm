version 2
classes 2
global 0
entry 0
fn 1 5
new r1, 2, 1
glob r2, g0
acq 0
load r3, r2
field r4, r1, 1
store r4, r3
store r2, r1
rel
ret r0
list
expr r1 .1 write
expr r2 write
