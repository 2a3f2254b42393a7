global h;
global c;
fn put(q, v) {
  *q = v;
  return v;
}
fn main(t) {
  n = new 1;
  p = &h;
  atomic {
    r = put(p, n);
    x = *p;
    *x = t;
    s = &c;
    *s = t;
  }
  return t;
}
