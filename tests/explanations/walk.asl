global head;
fn main(t) {
  n = new 2;
  p = &head;
  atomic {
    y = *p;
    g = &n[1];
    *g = y;
    *p = n;
  }
  atomic {
    x = *p;
    while x {
      f = &x[1];
      x = *f;
    }
  }
  return t;
}
