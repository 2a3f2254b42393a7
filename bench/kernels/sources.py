"""The sources of the programs that bench/parallel measures. `work` is a C function there, and each section calls it once."""
ACCOUNTS, BUCKETS = 64, 16
WORK = "fn work(n) { return n; }\n"


def main_of(calls, first=""):
    """A main that calls each, under a branch of its own."""
    return f"fn main(t) {{\n{first}" + "".join(f"  if t {{ r = {call}; }}\n" for call in calls) + "  return t;\n}\n"


def bank():
    """Transfers between two of 64 accounts: two cells each."""
    pick = "".join(f"  if t {{ {p} = &a{i}; }}\n" for p in ("p", "q") for i in range(ACCOUNTS))
    return "".join(f"global a{i};\n" for i in range(ACCOUNTS)) + WORK + """
fn open(place) {
  much = 1000;
  atomic { made = new 7; *made = much; *place = made; }
  return much;
}
fn transfer(from, to, amount, n) {
  atomic {
    f = *from;
    g = *to;
    x = *f;
    x = x - amount;
    *f = x;
    w = work(n);
    y = *g;
    y = y + amount;
    *g = y;
  }
  return amount;
}
""" + main_of(["open(p)", "transfer(p, q, t, t)"], "  p = &a0;\n  q = &a0;\n" + pick)


BUCKET = """
fn find%(i)s(key, n) {
  p = &h%(i)s;
  found = 0;
  atomic {
    x = *p;
    while x {
      k = *x;
      same = k == key;
      if same { found = 1; x = null; } else { f = &x[1]; x = *f; }
    }
    w = work(n);
  }
  return found;
}
fn bump%(i)s(key, n) {
  p = &h%(i)s;
  one = 1;
  atomic {
    x = *p;
    while x {
      k = *x;
      same = k == key;
      if same { f = &x[2]; v = *f; v = v + one; *f = v; x = null; } else { f = &x[1]; x = *f; }
    }
    w = work(n);
  }
  return one;
}
fn push%(i)s(key) {
  p = &h%(i)s;
  atomic {
    old = *p;
    n = new 3;
    *n = key;
    f = &n[1];
    *f = old;
    *p = n;
  }
  return key;
}
"""


def hash_table():
    """16 chains of 8, each by functions of its own, so that each is a class: half of the sections read, half write."""
    text, calls = "".join(f"global h{i};\n" for i in range(BUCKETS)) + WORK, []
    for i in range(BUCKETS):
        text += BUCKET % {"i": i}
        calls += [f"find{i}(t, t)", f"bump{i}(t, t)", f"push{i}(t)"]
    return text + main_of(calls)


def chain():
    """One list of 32: half of the sections walk, half take the first and put it last."""
    return "global head;\n" + WORK + """
fn push(value) {
  p = &head;
  atomic { m = new 2; *m = value; y = *p; f = &m[1]; *f = y; *p = m; }
  return value;
}
fn walk(n) {
  p = &head;
  one = 1;
  count = 0;
  atomic {
    x = *p;
    while x { count = count + one; f = &x[1]; x = *f; }
    w = work(n);
  }
  return count;
}
fn rotate(n) {
  p = &head;
  zero = 0;
  atomic {
    m = *p;
    f = &m[1];
    y = *f;
    *f = zero;
    *p = y;
    while y { f = &y[1]; y = *f; }
    *f = m;
    w = work(n);
  }
  return zero;
}
""" + main_of(["push(t)", "walk(t)", "rotate(t)"])


def tree():
    """A search tree of 1,023 keys: of 20 sections one writes."""
    down = """        low = key < k;
        if low { f = &x[1]; } else { f = &x[2]; }
        x = *f;
"""
    return "global root;\n" + WORK + """
fn insert(key) {
  p = &root;
  atomic {
    n = new 4;
    *n = key;
    x = *p;
    while x {
      k = *x;
      low = key < k;
      if low { p = &x[1]; } else { p = &x[2]; }
      x = *p;
    }
    *p = n;
  }
  return key;
}
fn find(key, n) {
  p = &root;
  found = 0;
  atomic {
    x = *p;
    while x {
      k = *x;
      same = k == key;
      if same { found = 1; x = null; } else {
""" + down + """      }
    }
    w = work(n);
  }
  return found;
}
fn touch(key, n) {
  p = &root;
  one = 1;
  atomic {
    x = *p;
    while x {
      k = *x;
      same = k == key;
      if same { f = &x[3]; v = *f; v = v + one; *f = v; x = null; } else {
""" + down + """      }
    }
    w = work(n);
  }
  return one;
}
""" + main_of(["insert(t)", "find(t, t)", "touch(t, t)"])


def queue():
    """One queue: each section takes the first and puts it last, so all are one after the other."""
    return "global head;\nglobal tail;\n" + WORK + """
fn put(value) {
  h = &head;
  l = &tail;
  atomic {
    n = new 2;
    *n = value;
    x = *l;
    if x { f = &x[1]; *f = n; } else { *h = n; }
    *l = n;
  }
  return value;
}
fn pass(n) {
  h = &head;
  l = &tail;
  zero = 0;
  atomic {
    m = *h;
    f = &m[1];
    y = *f;
    *h = y;
    *f = zero;
    x = *l;
    f = &x[1];
    *f = m;
    *l = m;
    w = work(n);
  }
  return zero;
}
""" + main_of(["put(t)", "pass(t)"])


PROGRAMS = {"bank": bank, "hash": hash_table, "list": chain, "tree": tree, "queue": queue}
