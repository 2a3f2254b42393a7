version 2
classes 0
entry 0
fn 1 3
int r1, 4
call r2, r1, 1
out r2
ret r2
fn 1 4
jz r0, 9
int r1, 1
sub r2, r0, r1
call r3, r2, 1
add r0, r0, r3
ret r0
