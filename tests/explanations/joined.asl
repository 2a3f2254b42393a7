global accounts;
global log;
fn keep(p, v) {
  atomic {
    *p = v;
  }
  return v;
}
fn main(t) {
  a = &accounts;
  b = &log;
  account = new 1;
  entry = new 1;
  r = keep(a, account);
  r = keep(b, entry);
  atomic {
    *a = t;
    x = *b;
  }
  return t;
}
