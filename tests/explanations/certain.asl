global a;
global b;
fn main(t) {
  x = &a;
  y = &b;
  atomic {
    *x = y;
    z = *x;
    *z = t;
  }
  return t;
}
