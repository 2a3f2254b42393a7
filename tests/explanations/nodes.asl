global queue;

fn main(t) {
  q = &queue;
  i = t;
  one = 1;
  while i {
    n = new 2;
    next = &n[1];
    atomic {
      head = *q;
      *next = head;
      *q = n;
    }
    m = new 2;
    atomic {
      head = *q;
      tail = &head[1];
      *tail = m;
    }
    i = i - one;
  }
  return t;
}
