global g;
fn main(t) {
  atomic {
    n = new 1;
    *n = t;
  }
  return t;
}
