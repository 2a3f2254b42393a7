global head;
fn main(t) {
  p = &head;
  atomic {
    n = new 2;
    *n = t;
    y = *p;
    g = &n[1];
    *g = y;
    *p = n;
  }
  return t;
}
