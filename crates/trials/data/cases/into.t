Copies of the accepted targets are stored below a folder.

Each accepted target is copied under its path, and no refused one. Folders are made as needed, and no temporary file is left. The state is the same as without copies.
  $ make
  > @keys
  > target targets d/e/f 31 sha256
  > target targets b 62 sha512
  > target targets n - both
  > write root 1 1
  > @files
  $ init one
  root 1
  $ put targets/d/other
  $ verify one two d/e/f b n d/other abc.txt gone
  root 1
  end ready
  ok "d/e/f" 1 "targets"
  ok "b" 1 "targets"
  ok "n" 0 "targets"
  no "d/other" NotFound
  ok "abc.txt" 3 "targets"
  no "gone" NotFound
  [1]
  $ verify one three --into new/copies d/e/f b n d/other abc.txt gone
  root 1
  end ready
  ok "d/e/f" 1 "targets"
  ok "b" 1 "targets"
  ok "n" 0 "targets"
  no "d/other" NotFound
  ok "abc.txt" 3 "targets"
  no "gone" NotFound
  [1]
  $ same two three
  $ same targets/d/e/f new/copies/d/e/f
  $ same targets/b new/copies/b
  $ same targets/n new/copies/n
  $ same targets/abc.txt new/copies/abc.txt
  $ has new/copies/d/other
  [1]
  $ has new/copies/gone
  [1]
  $ has new/copies/.tufcheck.1.new
  [1]

No accepted target leaves no folder. A path that is wanted twice is copied once.
  $ verify one two --into none gone
  root 1
  end ready
  no "gone" NotFound
  [1]
  $ has none
  [1]
  $ verify one two --into twice abc.txt b abc.txt
  root 1
  end ready
  ok "abc.txt" 3 "targets"
  ok "b" 1 "targets"
  ok "abc.txt" 3 "targets"
  $ same targets/abc.txt twice/abc.txt

An old file is replaced, and with it a link, but not the file to which it leads. A refused target leaves the old file.
  $ put kept
  > old
  $ put twice/abc.txt
  > old
  $ remove twice/b
  $ link kept twice/b
  $ put targets/n
  > not empty
  $ put twice/n
  > old
  $ verify one two --into twice abc.txt b n
  root 1
  end ready
  ok "abc.txt" 3 "targets"
  ok "b" 1 "targets"
  no "n" LengthWrong
  [1]
  $ same targets/abc.txt twice/abc.txt
  $ same targets/b twice/b
  $ put old
  > old
  $ same kept old
  $ same twice/n old
  $ has twice/.tufcheck.1.new
  [1]

A copy that is there stays if it has its target's bytes, and no others.
  $ verify one two --into twice abc.txt
  root 1
  end ready
  ok "abc.txt" 3 "targets"
  $ same targets/abc.txt twice/abc.txt
  $ put twice/abc.txt
  > abd
  $ verify one two --into twice abc.txt
  root 1
  end ready
  ok "abc.txt" 3 "targets"
  $ same targets/abc.txt twice/abc.txt

A folder of that name that others may use is no run's: it is not used, and stays.
  $ remove twice/b
  $ folder twice/.tufcheck.1.new
  $ put twice/.tufcheck.1.new/1
  > left
  $ verify one two --into twice b
  root 1
  end ready
  ok "b" 1 "targets"
  $ put left
  > left
  $ same twice/.tufcheck.1.new/1 left
  $ has twice/.tufcheck.2.new
  [1]

What a run that ended has left is removed.
  $ unlock twice/.tufcheck.1.new
  $ folder twice/.tufcheck.3.new
  $ unlock twice/.tufcheck.3.new
  $ put twice/.tufcheck.3.new/lock
  $ verify one two --into twice b
  root 1
  end ready
  ok "b" 1 "targets"
  $ has twice/.tufcheck.1.new
  [1]
  $ has twice/.tufcheck.3.new
  [1]

If the update stops, nothing is copied.
  $ copy metadata/timestamp.json timestamp.json
  $ put metadata/timestamp.json
  $ verify one two --into stopped abc.txt
  root 1
  end timestamp Malformed
  no "abc.txt" NotSearched
  [2]
  $ has stopped
  [1]
  $ copy timestamp.json metadata/timestamp.json

A path that is empty or absolute, has an empty part, `.` or `..`, or begins with `.tufcheck.` is a usage error, before the moment, the state and the folders are read. Without copies such a path is like any other.
  $ remove two
  $ verify one two --into bad ""
  ! tufcheck: words
  [3]
  $ verify one two --into bad /abc.txt
  ! tufcheck: words
  [3]
  $ verify one two --into bad abc.txt d//f
  ! tufcheck: words
  [3]
  $ verify one two --into bad d/
  ! tufcheck: words
  [3]
  $ verify one two --into bad .
  ! tufcheck: words
  [3]
  $ verify one two --into bad ../abc.txt
  ! tufcheck: words
  [3]
  $ verify one two --into bad d/../abc.txt
  ! tufcheck: words
  [3]
  $ verify one two --into bad .tufcheck.1.new/1
  ! tufcheck: words
  [3]
  $ verify one two --into bad abc.txt .TufCheck.
  ! tufcheck: words
  [3]
  $ tufcheck verify --state gone --metadata gone --targets gone --out two --now never --into bad d/./f
  ! tufcheck: words
  [3]
  $ put list
  > abc.txt
  > ..
  $ verify one two --into bad --paths-from list
  ! tufcheck: words
  [3]
  $ has bad
  [1]
  $ has two
  [1]
  $ verify one two .. /abc.txt "" .tufcheck.1.new/1
  root 1
  end ready
  no ".." NotFound
  no "/abc.txt" NotFound
  no "" NotFound
  no ".tufcheck.1.new/1" NotFound
  [1]

The folder for copies is apart from the state, the folders and the list of paths: none is it or below it, nor is it below one of them, by whatever name. Else that is a usage error, before anything is read.
  $ verify one two --into . abc.txt
  ! tufcheck: words
  [3]
  $ verify one two --into targets abc.txt
  ! tufcheck: words
  [3]
  $ verify one two --into metadata/new/copies abc.txt
  ! tufcheck: words
  [3]
  $ verify one bad/two --into bad abc.txt
  ! tufcheck: words
  [3]
  $ verify bad/../one two --into bad abc.txt
  ! tufcheck: words
  [3]
  $ link targets alias
  $ verify one two --into alias/copies abc.txt
  ! tufcheck: words
  [3]
  $ link bad/two nowhere
  $ verify one nowhere --into bad abc.txt
  ! tufcheck: words
  [3]
  $ folder lists
  $ copy list lists/list
  $ verify one two --into lists --paths-from lists/list
  ! tufcheck: words
  [3]
  $ has bad
  [1]

A copy that can't be written ends the run before anything is stored, and so does a folder that can't be followed.
  $ remove two
  $ folder frozen
  $ freeze frozen
  $ verify one two --into frozen abc.txt
  ! tufcheck: output
  [4]
  $ unlock frozen
  $ has two
  [1]
  $ put file
  $ verify one two --into file abc.txt
  ! tufcheck: output
  [4]
  $ verify one two --into file/below abc.txt
  ! tufcheck: words
  [3]
  $ has two
  [1]

An accepted path that can't be written has a line of its own. The state and the other copies are stored.
  $ folder half/abc.txt
  $ put half/d
  > a file
  $ verify one two --into half abc.txt b n
  root 1
  end ready
  no "abc.txt" NoPlace
  ok "b" 1 "targets"
  no "n" LengthWrong
  [1]
  $ same targets/b half/b
  $ has half/n
  [1]
  $ has half/.tufcheck.1.new
  [1]
  $ has two
  $ verify one two --into half d/e/f b d/e/f
  root 1
  end ready
  no "d/e/f" NoPlace
  ok "b" 1 "targets"
  no "d/e/f" NoPlace
  [1]

Copies are there if the lines can't be printed.
  $ remove twice
  $ narrow 0 verify --state one --metadata metadata --targets targets --out two --now 2026-01-01T00:00:00Z --into twice b
  ! tufcheck: output
  [4]
  $ same targets/b twice/b

Every file of the targets folder, in byte order.
  $ remove twice
  $ verify one two --every --into twice
  root 1
  end ready
  ok "abc.txt" 3 "targets"
  ok "b" 1 "targets"
  ok "d/e/f" 1 "targets"
  no "d/other" NotFound
  no "n" LengthWrong
  [1]
  $ same targets/d/e/f twice/d/e/f
  $ has twice/n
  [1]

With consistent names a copy has its path, whichever digest names the file. A path that is a folder of another accepted one has no place.
  $ make
  > @keys
  > consistent yes
  > target targets d 31 sha256
  > target targets d/e - sha256
  > target targets r 31 sha512
  > target targets b 62 both
  > write root 1 1
  > @files
  $ init one
  root 1
  $ verify one two --every --into plain
  root 1
  end ready
  ok "abc.txt" 3 "targets"
  ok "b" 1 "targets"
  no "d" NoPlace
  ok "d/e" 0 "targets"
  ok "r" 1 "targets"
  [1]
  $ same targets/ba7816bf8f01cfea414140de5dae2223b00361a396177a9cb410ff61f20015ad.abc.txt plain/abc.txt
  $ same targets/3e23e8160039594a33894f6564e1b1348bbd7a0088d42c4acb73eeaed59c009d.b plain/b
  $ has plain/d/e
  $ has plain/r

With them a name may stand for a path that no copy may have. It has its line.
  $ put targets/ba7816bf8f01cfea414140de5dae2223b00361a396177a9cb410ff61f20015ad...
  > abc
  $ put targets/ba7816bf8f01cfea414140de5dae2223b00361a396177a9cb410ff61f20015ad.
  > abc
  $ verify one two --every --into plain
  root 1
  end ready
  no "" NotFound
  no ".." NotFound
  ok "abc.txt" 3 "targets"
  ok "b" 1 "targets"
  no "d" NoPlace
  ok "d/e" 0 "targets"
  ok "r" 1 "targets"
  [1]

Arguments. An empty folder is none.
  $ verify one two --into "" abc.txt
  ! tufcheck: words
  [3]
  $ verify one two --into
  ! error: ...
  ...
  [3]
  $ verify one two --into a --into b abc.txt
  ! error: ...
  ...
  [3]
  $ tufcheck replay --state one --into a --out two abc.txt .
  ! error: ...
  ...
  [3]
  $ has a
  [1]
