version 2
classes 2
global 0
global 1
global 1
entry 0
fn 1 5
glob r1, g0
glob r2, g1
glob r3, g2
jz r0, 9
acq 1
int r4, 1
store r3, r4
rel
jmp 13
acq 0
store r1, r3
store r1, r2
rel
ret r0
list
expr r1 write
list
expr r1 * write
