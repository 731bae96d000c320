Hash bins: the first bits of a path's SHA-256 name its role. That of abc is ba7816bf.., that of the empty path e3b0c442.., and that of abd a52d159f.. .

Eight bits, of which one bin is written.
  $ make
  > @one
  > key 5 5 4
  > succinct targets 1 5 8 bin
  > target bin-ba abc 616263 sha256
  > write bin-ba 1 5
  > @top
  $ init old
  root 1
  $ by 0,1,4,64 old new abc
  root 1
  end ready
  role "bin-ba" 1
  ok "abc" 3 "bin-ba"
  $ by 0,4 old new "" abc
  root 1
  end ready
  role "bin-ba" 1
  no "" NotListed "bin-e3"
  ok "abc" 3 "bin-ba"
  [1]

Another number of bits leads to another bin. The number has as many digits as that of the last bin.
  $ make
  > @one
  > key 5 5 4
  > succinct targets 1 5 1 bin
  > target bin-1 abc 616263 sha256
  > write bin-1 1 5
  > @top
  $ verify old new abc
  root 1
  end ready
  role "bin-1" 1
  ok "abc" 3 "bin-1"
  $ make
  > @one
  > key 5 5 4
  > succinct targets 1 5 4 bin
  > target bin-b abc 616263 sha256
  > write bin-b 1 5
  > @top
  $ verify old new abc
  root 1
  end ready
  role "bin-b" 1
  ok "abc" 3 "bin-b"
  $ make
  > @one
  > key 5 5 4
  > succinct targets 1 5 9 bin
  > target bin-174 abc 616263 sha256
  > write bin-174 1 5
  > @top
  $ verify old new abc
  root 1
  end ready
  role "bin-174" 1
  ok "abc" 3 "bin-174"
  $ make
  > @one
  > key 5 5 4
  > succinct targets 1 5 16 bin
  > target bin-0007 p/43377 616263 sha256
  > write bin-0007 1 5
  > @top
  $ verify old new p/43377
  root 1
  end ready
  role "bin-0007" 1
  ok "p/43377" 3 "bin-0007"
  $ make
  > @one
  > key 5 5 4
  > succinct targets 1 5 32 a-b
  > target a-b-ba7816bf abc 616263 sha256
  > write a-b-ba7816bf 1 5
  > @top
  $ verify old new abc
  root 1
  end ready
  role "a-b-ba7816bf" 1
  ok "abc" 3 "a-b-ba7816bf"

A bin's file is signed by the keys of the file that has the bins.
  $ make
  > @one
  > key 5 5 4
  > succinct targets 1 5 8 bin
  > target bin-ba abc 616263 sha256
  > write bin-ba 1 1
  > @top
  $ verify old new abc
  root 1
  end ready
  no "abc" Unsigned "bin-ba"
  [1]

A bin delegates on, and its targets file may be empty.
  $ make
  > @one
  > key 5 5 4
  > key 6 5 4
  > succinct targets 1 5 8 bin
  > delegate bin-ba a 1 6 go paths abc
  > target a abc 616263 sha256
  > write a 1 6
  > write bin-ba 2 5
  > write bin-e3 1 5
  > @top
  $ verify old new abc ""
  root 1
  end ready
  role "a" 1
  role "bin-ba" 2
  role "bin-e3" 1
  ok "abc" 3 "a"
  no "" NotFound
  [1]

Bins of a delegated role. The bin is for every path and nothing is tried after it: b isn't searched, though it lists the path.
  $ make
  > @one
  > key 5 5 4
  > key 6 5 4
  > delegate targets a 1 5 go paths abc
  > delegate targets b 1 5 go paths abc
  > succinct a 1 6 8 bin
  > write bin-ba 1 6
  > target b abc 616263 sha256
  > write a 1 5
  > write b 1 5
  > @top
  $ verify old new abc
  root 1
  end ready
  role "a" 1
  role "bin-ba" 1
  no "abc" NotFound
  [1]

More bits in a newer targets file.
  $ make
  > @one
  > key 5 5 4
  > succinct targets 1 5 4 bin
  > target bin-b abc 616263 sha256
  > write bin-b 1 5
  > @top
  > succinct targets 1 5 8 bin
  > target bin-ba abc 61626364 sha256
  > write bin-ba 1 5
  > write targets 2 1
  > write snapshot 2 1
  > write timestamp 2 1
  $ verify old new abc
  root 1
  end ready
  role "bin-ba" 1
  ok "abc" 4 "bin-ba"
