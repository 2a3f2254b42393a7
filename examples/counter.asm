version 2
classes 1
global 0
entry 0
fn 1 5
glob r1, g0
acq 0
load r2, r1
int r3, 1
add r4, r2, r3
store r1, r4
rel
ret r0
list
expr r1 write
