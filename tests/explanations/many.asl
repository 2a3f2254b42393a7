global head;
fn main(t) {
  n = new 9;
  p = &head;
  atomic {
    *p = n;
  }
  atomic {
    f = &n[0];
    x = *f;
    f = &n[1];
    x = *f;
    f = &n[2];
    x = *f;
    f = &n[3];
    x = *f;
    f = &n[4];
    x = *f;
    f = &n[5];
    x = *f;
    f = &n[6];
    *f = n;
    f = &n[7];
    *f = n;
    x = n;
    while x {
      f = &x[8];
      x = *f;
    }
  }
  return t;
}
