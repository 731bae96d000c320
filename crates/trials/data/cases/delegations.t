Searches through delegations.

The top-level role lists the path itself.
  $ make
  > @one
  > target targets p 31 sha256
  > @top
  $ init old
  root 1
  $ verify old new p
  root 1
  end ready
  ok "p" 1 "targets"

A star stands for no slash.
  $ make
  > @one
  > key 5 5 4
  > delegate targets a 1 5 go paths *.tgz
  > target a foo.tgz 31 sha256
  > target a targets/foo.tgz 31 sha256
  > write a 2 5
  > @top
  $ init old
  root 1
  $ verify old new foo.tgz targets/foo.tgz
  root 1
  end ready
  role "a" 2
  ok "foo.tgz" 1 "a"
  no "targets/foo.tgz" NotFound
  [1]

The SHA-256 of abc begins with ba7816bf.
  $ make
  > @one
  > key 5 5 4
  > delegate targets a 1 5 go prefixes ba78
  > target a abc 31 sha256
  > write a 1 5
  > @top
  $ init old
  root 1
  $ verify old new abc
  root 1
  end ready
  role "a" 1
  ok "abc" 1 "a"

It doesn't begin with ba79.
  $ make
  > @one
  > key 5 5 4
  > delegate targets a 1 5 go prefixes ba79
  > target a abc 31 sha256
  > write a 1 5
  > @top
  $ init old
  root 1
  $ verify old new abc
  root 1
  end ready
  no "abc" NotFound
  [1]

After a terminating delegation nothing else is tried.
  $ make
  > @wide
  > key 5 5
  > delegate targets a 1 5 go paths p
  > delegate targets b 1 5 stop paths p
  > delegate targets c 1 5 go paths p
  > target c p 31 sha256
  > write a 1 5
  > write b 1 5
  > write c 1 5
  > write root 1 1
  > @files
  $ init old
  root 1
  $ verify old new p
  root 1
  end ready
  role "a" 1
  role "b" 1
  no "p" NotFound
  [1]

No more roles are visited than the limit allows, the top-level role among them.
  $ make
  > @wide
  > key 5 5
  > delegate targets a 1 5 go paths p
  > delegate a a 1 5 go paths p
  > write a 1 5
  > write root 1 1
  > @files
  $ init old
  root 1
  $ verify old new --limit 1 p
  root 1
  end ready
  no "p" LimitReached
  [1]

The same with the limit 2: a role that delegates to itself is visited once.
  $ verify old new --limit 2 p
  root 1
  end ready
  role "a" 1
  no "p" NotFound
  [1]

A role that is refused ends the search, though another one lists the path.
  $ make
  > @one
  > key 5 5 4
  > key 6 5 4
  > delegate targets a 1 5 go paths p
  > delegate targets b 1 5 go paths p
  > target b p 31 sha256
  > write a 1 6
  > write b 1 5
  > @top
  $ init old
  root 1
  $ verify old new p
  root 1
  end ready
  no "p" Unsigned "a"
  [1]

A terminating delegation to a role that was visited is skipped, and ends the search all the same.
  $ make
  > @one
  > key 5 5 4
  > delegate targets a 1 5 go paths p
  > delegate a b 1 5 go paths p
  > delegate b a 1 5 stop paths p
  > delegate targets c 1 5 go paths p
  > target c p 31 sha256
  > write a 1 5
  > write b 1 5
  > write c 1 5
  > @top
  $ init old
  root 1
  $ verify old new p
  root 1
  end ready
  role "a" 1
  role "b" 1
  no "p" NotFound
  [1]

Roles are printed in the order of their names, and not in that of the search.
  $ make
  > @one
  > key 5 5 4
  > delegate targets b 1 5 go paths p
  > delegate targets a 1 5 go paths p
  > target a p 31 sha256
  > write a 3 5
  > write b 2 5
  > @top
  $ init old
  root 1
  $ verify old new p q
  root 1
  end ready
  role "a" 3
  role "b" 2
  ok "p" 1 "a"
  no "q" NotFound
  [1]

A role whose file the snapshot doesn't list.
  $ make
  > @one
  > key 5 5 4
  > delegate targets a 1 5 go paths p
  > @top
  $ init old
  root 1
  $ verify old new p
  root 1
  end ready
  no "p" NotListed "a"
  [1]

A delegated role may have the name of a top-level one, and is looked up as any other.
  $ make
  > @one
  > key 5 5 4
  > delegate targets root 1 5 go paths p
  > @top
  $ init old
  root 1
  $ verify old new p
  root 1
  end ready
  no "p" NotListed "root"
  [1]

A name that would lead out of a folder is a name.
  $ make
  > @one
  > key 5 5 4
  > delegate targets .. 1 5 go paths p
  > target .. p 31 sha256
  > write .. 1 5
  > @top
  $ init old
  root 1
  $ verify old new p
  root 1
  end ready
  role ".." 1
  ok "p" 1 ".."

The roles it delegates to aren't searched if it lists the path itself.
  $ make
  > @one
  > key 5 5 4
  > target targets p 31 sha256
  > delegate targets a 1 5 stop paths p
  > write a 1 5
  > @top
  $ init old
  root 1
  $ verify old new p
  root 1
  end ready
  ok "p" 1 "targets"

A terminating delegation to targets is skipped, and ends the search all the same.
  $ make
  > @one
  > key 5 5 4
  > delegate targets a 1 5 go paths p
  > delegate a targets 1 5 stop paths p
  > delegate targets c 1 5 go paths p
  > target c p 31 sha256
  > write a 1 5
  > write c 1 5
  > @top
  $ init old
  root 1
  $ verify old new p
  root 1
  end ready
  role "a" 1
  no "p" NotFound
  [1]

Capitals in a prefix make the file malformed.
  $ make
  > @one
  > key 5 5 4
  > delegate targets a 1 5 go prefixes BA78
  > @top
  $ init old
  root 1
  $ verify old new abc
  root 1
  end targets Malformed
  no "abc" NotSearched
  [2]

Two roles delegate to one, each by another key: each delegation asks its own keys, in whatever order the paths come.
  $ make
  > @one
  > key 5 5 4
  > key 6 5 4
  > key 7 5 4
  > delegate targets a 1 7 go paths x/*
  > delegate targets b 1 7 go paths y/*
  > delegate a c 1 5 go paths x/*
  > delegate b c 1 6 go paths y/*
  > target c x/1 31 sha256
  > target c y/1 32 sha256
  > write c 1 5
  > write a 1 7
  > write b 1 7
  > @top
  $ init old
  root 1
  $ verify old new x/1 y/1
  root 1
  end ready
  role "a" 1
  role "b" 1
  role "c" 1
  ok "x/1" 1 "c"
  no "y/1" Unsigned "c"
  [1]
  $ verify old new y/1 x/1
  root 1
  end ready
  role "a" 1
  role "b" 1
  role "c" 1
  no "y/1" Unsigned "c"
  ok "x/1" 1 "c"
  [1]
  $ verify old new x/1 y/1 x/1 y/1
  root 1
  end ready
  role "a" 1
  role "b" 1
  role "c" 1
  ok "x/1" 1 "c"
  no "y/1" Unsigned "c"
  ok "x/1" 1 "c"
  no "y/1" Unsigned "c"
  [1]
  $ by 0,1,4 old new y/1 x/1 y/1 x/1
  root 1
  end ready
  role "a" 1
  role "b" 1
  role "c" 1
  no "y/1" Unsigned "c"
  ok "x/1" 1 "c"
  no "y/1" Unsigned "c"
  ok "x/1" 1 "c"
  [1]

Two roles delegate to one by the same keys, one with a threshold of 1 and the other of 2, and one key has signed: what is accepted for the one isn't accepted for the other, and what is refused for the other isn't refused for the one.
  $ make
  > @one
  > key 5 5 4
  > key 6 5 4
  > delegate targets a 1 1 go paths x/*
  > delegate targets b 1 1 go paths y/*
  > delegate a c 1 5,6 go paths x/*
  > delegate b c 2 5,6 go paths y/*
  > target c x/1 31 sha256
  > target c y/1 32 sha256
  > write c 1 5
  > write a 1 1
  > write b 1 1
  > @top
  $ init old
  root 1
  $ by 0,1,4 old new x/1 y/1 x/1 y/1
  root 1
  end ready
  role "a" 1
  role "b" 1
  role "c" 1
  ok "x/1" 1 "c"
  no "y/1" Unsigned "c"
  ok "x/1" 1 "c"
  no "y/1" Unsigned "c"
  [1]
  $ by 0,1,4 old new y/1 x/1 y/1 x/1
  root 1
  end ready
  role "a" 1
  role "b" 1
  role "c" 1
  no "y/1" Unsigned "c"
  ok "x/1" 1 "c"
  no "y/1" Unsigned "c"
  ok "x/1" 1 "c"
  [1]

A role's file that expired a second before the run's moment is refused, whatever else it lists. One that expires a second after that moment isn't.
  $ make
  > @one
  > key 5 5 4
  > delegate targets a 1 5 go paths a/*
  > delegate targets b 1 5 go paths b/*
  > target a a/1 31 sha256
  > target b b/1 31 sha256
  > expires 2025-12-31T23:59:59Z
  > write a 1 5
  > expires 2026-01-01T00:00:01Z
  > write b 1 5
  > expires 2030-01-01T00:00:00Z
  > @top
  $ init old
  root 1
  $ verify old new a/1 b/1
  root 1
  end ready
  role "b" 1
  no "a/1" Expired "a"
  ok "b/1" 1 "b"
  [1]
