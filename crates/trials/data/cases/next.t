What has to be fetched next is named, file by file. The folders are empty at first, and each step puts in what the one before named.

The first root alone is trusted: the next root is looked up, and then the timestamp.
  $ make
  > @keys
  > consistent yes
  > target targets dir/abc.txt 616263 both
  > target targets b 62 sha512
  > write root 1 1
  > write targets 4 4
  > write snapshot 3 3
  > write timestamp 2 2
  $ init state
  root 1
  $ folder m
  $ folder t
  $ tufcheck next --state state --metadata m --targets t --now 2026-01-01T00:00:00Z dir/abc.txt
  maybe "2.root.json" 512000
  need "timestamp.json" 16384
  $ copy state before

The snapshot of the version that the timestamp lists, and then the targets file that the snapshot lists. No root follows, and it is looked up each time.
  $ copy metadata/timestamp.json m/timestamp.json
  $ tufcheck next --state state --metadata m --targets t --now 2026-01-01T00:00:00Z dir/abc.txt
  maybe "2.root.json" 512000
  need "3.snapshot.json" ...
  $ copy metadata/3.snapshot.json m/3.snapshot.json
  $ tufcheck next --state state --metadata m --targets t --now 2026-01-01T00:00:00Z dir/abc.txt
  maybe "2.root.json" 512000
  need "4.targets.json" ...

The file of a target under each of its names: by its sha256 digest, and by its sha512 digest. Only the last is needed, since the workflow goes on to it. Each line comes once.
  $ copy metadata/4.targets.json m/4.targets.json
  $ tufcheck next --state state --metadata m --targets t --now 2026-01-01T00:00:00Z dir/abc.txt b dir/abc.txt c
  maybe "2.root.json" 512000
  maybe "dir/ba7816bf8f01cfea414140de5dae2223b00361a396177a9cb410ff61f20015ad.abc.txt" 3
  need "dir/ddaf35a193617abacc417349ae20413112e6fa4e89a97ea20a9eeee64b55d39a2192992a274fc1a836ba3c23a3feebbd454d4423643ce80e2a9ac94fa54ca49f.abc.txt" 3
  need "5267768822ee624d48fce15ec5ca79cbd602cb7f4c2157a516556991f22ef8c7b5ef7b18d1ff41c59370efb0858651d44a936c11b7b144c48fe04df3c6a3e8da.b" 1
  $ tufcheck next --state state --metadata m --targets t --now 2026-01-01T00:00:00Z --only targets dir/abc.txt
  maybe "dir/ba7816bf8f01cfea414140de5dae2223b00361a396177a9cb410ff61f20015ad.abc.txt" 3
  need "dir/ddaf35a193617abacc417349ae20413112e6fa4e89a97ea20a9eeee64b55d39a2192992a274fc1a836ba3c23a3feebbd454d4423643ce80e2a9ac94fa54ca49f.abc.txt" 3
  $ tufcheck next --state state --metadata m --targets t --now 2026-01-01T00:00:00Z --only metadata dir/abc.txt
  maybe "2.root.json" 512000

A file that lies under its last name is enough, also one with other bytes, since a target file isn't read. The first name was looked up too.
  $ folder t/dir
  $ put t/dir/ddaf35a193617abacc417349ae20413112e6fa4e89a97ea20a9eeee64b55d39a2192992a274fc1a836ba3c23a3feebbd454d4423643ce80e2a9ac94fa54ca49f.abc.txt
  > xyz
  $ tufcheck next --state state --metadata m --targets t --now 2026-01-01T00:00:00Z dir/abc.txt b
  maybe "2.root.json" 512000
  maybe "dir/ba7816bf8f01cfea414140de5dae2223b00361a396177a9cb410ff61f20015ad.abc.txt" 3
  need "5267768822ee624d48fce15ec5ca79cbd602cb7f4c2157a516556991f22ef8c7b5ef7b18d1ff41c59370efb0858651d44a936c11b7b144c48fe04df3c6a3e8da.b" 1
  $ remove t/dir

One that lies under its first name is enough too, and the second isn't looked up then.
  $ folder t/dir
  $ put t/dir/ba7816bf8f01cfea414140de5dae2223b00361a396177a9cb410ff61f20015ad.abc.txt
  > xyz
  $ tufcheck next --state state --metadata m --targets t --now 2026-01-01T00:00:00Z dir/abc.txt
  maybe "2.root.json" 512000
  $ remove t/dir

With nothing wanted, or nothing that is listed, no target file is named. Nothing was stored.
  $ tufcheck next --state state --metadata m --targets t --now 2026-01-01T00:00:00Z
  maybe "2.root.json" 512000
  $ tufcheck next --state state --metadata m --targets t --now 2026-01-01T00:00:00Z c
  maybe "2.root.json" 512000
  $ same state before

Paths from a file come after those of the command line.
  $ put list
  > b
  > dir/abc.txt
  $ tufcheck next --state state --metadata m --targets t --now 2026-01-01T00:00:00Z --only targets --paths-from list c
  need "5267768822ee624d48fce15ec5ca79cbd602cb7f4c2157a516556991f22ef8c7b5ef7b18d1ff41c59370efb0858651d44a936c11b7b144c48fe04df3c6a3e8da.b" 1
  maybe "dir/ba7816bf8f01cfea414140de5dae2223b00361a396177a9cb410ff61f20015ad.abc.txt" 3
  need "dir/ddaf35a193617abacc417349ae20413112e6fa4e89a97ea20a9eeee64b55d39a2192992a274fc1a836ba3c23a3feebbd454d4423643ce80e2a9ac94fa54ca49f.abc.txt" 3

A cycle that stops for another fault needs no more files.
  $ tufcheck next --state state --metadata m --targets t --now 2040-01-01T00:00:00Z b
  maybe "2.root.json" 512000
  $ change m/4.targets.json
  > "version":4
  > "version":5
  $ tufcheck next --state state --metadata m --targets t --now 2026-01-01T00:00:00Z b
  maybe "2.root.json" 512000

What was fetched is all that a verification looks up: its outcome is that on the whole repository.
  $ copy metadata/4.targets.json m/4.targets.json
  $ copy targets/5267768822ee624d48fce15ec5ca79cbd602cb7f4c2157a516556991f22ef8c7b5ef7b18d1ff41c59370efb0858651d44a936c11b7b144c48fe04df3c6a3e8da.b t/5267768822ee624d48fce15ec5ca79cbd602cb7f4c2157a516556991f22ef8c7b5ef7b18d1ff41c59370efb0858651d44a936c11b7b144c48fe04df3c6a3e8da.b
  $ tufcheck next --state state --metadata m --targets t --now 2026-01-01T00:00:00Z b
  maybe "2.root.json" 512000
  $ tufcheck verify --state state --metadata m --targets t --now 2026-01-01T00:00:00Z --out new b
  root 1
  end ready
  ok "b" 1 "targets"
  $ verify state other b
  root 1
  end ready
  ok "b" 1 "targets"
  $ same new other

Roots come one by one; after the last one the next is looked up. A root that is refused stops the cycle, and none is looked up then.
  $ make
  > @keys
  > target targets abc.txt 616263 sha256
  > write root 1 1
  > write root 2 1
  > write root 3 1
  > @files
  $ init state
  root 1
  $ remove m
  $ folder m
  $ copy metadata/2.root.json m/2.root.json
  $ tufcheck next --state state --metadata m --targets t --now 2026-01-01T00:00:00Z abc.txt
  maybe "3.root.json" 512000
  need "timestamp.json" 16384
  $ copy metadata/2.root.json m/3.root.json
  $ tufcheck next --state state --metadata m --targets t --now 2026-01-01T00:00:00Z abc.txt

Without consistent names the names have no versions, and a target's file has its path. A listed length is named, up to the limit of the kind.
  $ make
  > @wide
  > write root 1 1
  > @files
  $ init state
  root 1
  $ remove m
  $ folder m
  $ change metadata/timestamp.json 2
  > "hashes":{..."version":1}
  > "version":1}
  $ copy metadata/timestamp.json m/timestamp.json
  $ tufcheck next --state state --metadata m --targets t --now 2026-01-01T00:00:00Z abc.txt
  maybe "2.root.json" 512000
  need "snapshot.json" 2000000
  $ change m/timestamp.json 2
  > "version":1}
  > "length":1204,"version":1}
  $ tufcheck next --state state --metadata m --targets t --now 2026-01-01T00:00:00Z abc.txt
  maybe "2.root.json" 512000
  need "snapshot.json" 1204
  $ change m/timestamp.json 2
  > "length":1204
  > "length":2000001
  $ tufcheck next --state state --metadata m --targets t --now 2026-01-01T00:00:00Z abc.txt
  maybe "2.root.json" 512000
  need "snapshot.json" 2000000
  $ copy metadata/timestamp.json m/timestamp.json
  $ copy metadata/snapshot.json m/snapshot.json
  $ copy metadata/targets.json m/targets.json
  $ tufcheck next --state state --metadata m --targets t --now 2026-01-01T00:00:00Z abc.txt
  maybe "2.root.json" 512000
  need "abc.txt" 3

The files of delegated roles, each once, as far as the searches come; then the files of targets.
  $ make
  > @keys
  > key 5 5 4
  > delegate targets a 1 5 go paths a*
  > delegate targets b.c 1 5 go paths b*
  > target targets t 74 sha256
  > target a a1 61 sha256
  > target a a2 62 sha256
  > target b.c b 62 sha256
  > write a 1 5
  > write b.c 1 5
  > write root 1 1
  > @files
  $ init state
  root 1
  $ remove m
  $ folder m
  $ copy metadata/timestamp.json m/timestamp.json
  $ copy metadata/snapshot.json m/snapshot.json
  $ copy metadata/targets.json m/targets.json
  $ tufcheck next --state state --metadata m --targets t --now 2026-01-01T00:00:00Z t b1 a2 a1
  maybe "2.root.json" 512000
  need "b.c.json" ...
  need "a.json" ...
  need "t" 1
  $ copy metadata/a.json m/a.json
  $ tufcheck next --state state --metadata m --targets t --now 2026-01-01T00:00:00Z t b1 a2 a1
  maybe "2.root.json" 512000
  need "b.c.json" ...
  need "t" 1
  need "a2" 1
  need "a1" 1
  $ tufcheck next --state state --metadata m --targets t --now 2026-01-01T00:00:00Z --limit 1 a1
  maybe "2.root.json" 512000

Failures.
  $ tufcheck next --state none --metadata m --targets t a1
  ! tufcheck: state file
  [3]
  $ tufcheck next --state state --metadata m --targets t --now yesterday a1
  ! tufcheck: now
  [3]
  $ tufcheck next --state state --metadata none --targets t a1
  ! tufcheck: folder
  [4]
  $ tufcheck next --state state --metadata m --targets none a1
  ! tufcheck: folder
  [4]
  $ tufcheck next --state state --metadata m --targets t --paths-from none
  ! tufcheck: input
  [4]
  $ narrow 3 next --state state --metadata m --targets t --now 2026-01-01T00:00:00Z a1
  ! tufcheck: output
  [4]
  $ tufcheck next --state state --metadata m --targets t --only both a1
  ! error: ...
  ...
  [3]
  $ tufcheck next --metadata m --targets t a1
  ! error: ...
  ...
  [3]
