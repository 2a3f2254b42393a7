global first;
global second;

fn main(t) {
  p = &first;
  i = t;
  one = 1;
  while i {
    atomic { x = *p; *p = i; }
    q = &second;
    p = q;
    i = i - one;
  }
  return t;
}
