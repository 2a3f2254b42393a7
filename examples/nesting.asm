version 2
classes 1
global 0
entry 0
fn 1 2
glob r1, g0
acq 0
acq 1
store r1, r0
rel
store r1, r0
rel
ret r0
list
expr r1 write
list
expr r1 write
