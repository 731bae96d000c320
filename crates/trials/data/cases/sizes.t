How long files may be, and how many of them are taken.

The limits of a timestamp, a snapshot and a targets file in bytes. Each is listed by its version alone, and has blanks
behind its text.
  $ make
  > @wide
  > write root 1 1
  > write root 2 1
  > @files
  $ init old
  root 1
  $ change metadata/timestamp.json 2
  > "hashes":{..."version":1}
  > "version":1}
  $ change metadata/snapshot.json 3
  > "hashes":{..."version":1}
  > "version":1}
  $ pad metadata/timestamp.json 16384
  $ verify old new
  root 2
  end ready
  $ pad metadata/timestamp.json 16385
  $ verify old new
  root 2
  end timestamp TooLong
  [2]
  $ pad metadata/timestamp.json 16384
  $ pad metadata/snapshot.json 2000000
  $ verify old new
  root 2
  end ready
  $ pad metadata/snapshot.json 2000001
  $ verify old new
  root 2
  end snapshot TooLong
  [2]
  $ pad metadata/snapshot.json 2000000
  $ pad metadata/targets.json 2500000
  $ verify old new
  root 2
  end ready
  $ pad metadata/targets.json 5000000
  $ verify old new
  root 2
  end ready
  $ pad metadata/targets.json 5000001
  $ verify old new
  root 2
  end targets TooLong
  [2]

A target's file may have any length, here 6,000,000 bytes: abc and blanks.
  $ pad metadata/targets.json 4000
  $ change metadata/targets.json 4
  > "hashes":{..."length":3
  > "hashes":{"sha256":"46bd659d4960ec34dad7228680005f0e513f600389c97f07c94c085b1c23a1f7"},"length":6000000
  $ pad targets/abc.txt 6000000
  $ verify old new abc.txt
  root 2
  end ready
  ok "abc.txt" 6000000 "targets"
  $ pad targets/abc.txt 5999999
  $ verify old new abc.txt
  root 2
  end ready
  no "abc.txt" LengthWrong
  [1]

A root has 512,000 bytes at most: the next one, and the first one.
  $ pad metadata/2.root.json 512000
  $ verify old new
  root 2
  end ready
  $ pad metadata/2.root.json 512001
  $ verify old new
  root 1
  end root TooLong
  [2]
  $ pad metadata/1.root.json 512000
  $ init new
  root 1
  $ remove new
  $ pad metadata/1.root.json 512001
  $ init new
  end root TooLong
  [2]
  $ has new
  [1]

A cycle accepts 256 roots, and the next one goes on.
  $ make
  > @1..9 key {} 5
  > top root 1 1,2,3,4,5,6,7,8,9
  > top timestamp 1 1
  > top snapshot 1 1
  > top targets 1 1
  > @1..29 write root {} 1
  > @30..59 write root {} 2
  > @60..89 write root {} 3
  > @90..119 write root {} 4
  > @120..149 write root {} 5
  > @150..179 write root {} 6
  > @180..209 write root {} 7
  > @210..239 write root {} 8
  > @240..258 write root {} 9
  > write targets 1 1
  > write snapshot 1 1
  > write timestamp 1 1
  $ init one
  root 1
  $ verify one two
  root 257
  end ready
  $ verify two three
  root 258
  end ready

A line of 300 roles, four of which list a path. The search visits 32 roles unless given another limit, the top-level role
among them, and 256 at most. The roles are printed in the order of their names, which is that of the line: 255 are accepted
at the most.
  $ make
  > @one
  > key 5 10
  > delegate targets r1001 1 5 go paths p,q,s,t
  > @1001..1299 delegate r{} r{+} 1 5 go paths p,q,s,t
  > target r1031 p 31 sha256
  > target r1032 q 31 sha256
  > target r1255 s 31 sha256
  > target r1300 t 31 sha256
  > @1001..1300 write r{} 1 5
  > @top
  $ init old
  root 1
  $ verify old new p
  root 1
  end ready
  role "r1001" 1
  ...
  role "r1031" 1
  ok "p" 1 "r1031"
  $ verify old new q
  root 1
  end ready
  role "r1001" 1
  ...
  role "r1031" 1
  no "q" LimitReached
  [1]
  $ verify old new --limit 33 q
  root 1
  end ready
  role "r1001" 1
  ...
  role "r1032" 1
  ok "q" 1 "r1032"
  $ verify old new --limit 256 s
  root 1
  end ready
  role "r1001" 1
  ...
  role "r1255" 1
  ok "s" 1 "r1255"
  $ by 0,8 old new --limit 256 t
  root 1
  end ready
  role "r1001" 1
  ...
  role "r1255" 1
  no "t" LimitReached
  [1]
