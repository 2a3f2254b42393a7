global a;
global b;
fn main(t) {
  n = new 1;
  x = &a;
  if t {
    x = &b;
  }
  atomic {
    *x = n;
    q = &a;
    z = *q;
    *z = t;
  }
  return t;
}
