global root;
fn refill(p) {
  atomic {
    *p = p;
  }
  atomic {
    x = *p;
  }
  return p;
}
fn spare(v) {
  return v;
}
fn main(t) {
  p = &root;
  atomic {
    x = *p;
    y = *x;
    *x = t;
  }
  return t;
}
