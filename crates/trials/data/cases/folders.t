Folders as they may be found.

What the examples below begin from.
  $ make
  > @keys
  > @1..70 target targets d{}/f 31 sha256
  > target targets a/b/c/d/e/f 31 sha256
  > write root 1 1
  > @files
  $ init old
  root 1

70 folders among the targets, and as many words of paths. Folders below folders are read, too.
  $ verify old new d1/f d2/f d3/f d4/f d5/f d6/f d7/f d8/f d9/f d10/f d11/f d12/f d13/f d14/f d15/f d16/f d17/f d18/f d19/f d20/f d21/f d22/f d23/f d24/f d25/f d26/f d27/f d28/f d29/f d30/f d31/f d32/f d33/f d34/f d35/f d36/f d37/f d38/f d39/f d40/f d41/f d42/f d43/f d44/f d45/f d46/f d47/f d48/f d49/f d50/f d51/f d52/f d53/f d54/f d55/f d56/f d57/f d58/f d59/f d60/f d61/f d62/f d63/f d64/f d65/f d66/f d67/f d68/f d69/f d70/f
  root 1
  end ready
  ok "d1/f" 1 "targets"
  ok "d2/f" 1 "targets"
  ok "d3/f" 1 "targets"
  ok "d4/f" 1 "targets"
  ok "d5/f" 1 "targets"
  ok "d6/f" 1 "targets"
  ok "d7/f" 1 "targets"
  ok "d8/f" 1 "targets"
  ok "d9/f" 1 "targets"
  ok "d10/f" 1 "targets"
  ok "d11/f" 1 "targets"
  ok "d12/f" 1 "targets"
  ok "d13/f" 1 "targets"
  ok "d14/f" 1 "targets"
  ok "d15/f" 1 "targets"
  ok "d16/f" 1 "targets"
  ok "d17/f" 1 "targets"
  ok "d18/f" 1 "targets"
  ok "d19/f" 1 "targets"
  ok "d20/f" 1 "targets"
  ok "d21/f" 1 "targets"
  ok "d22/f" 1 "targets"
  ok "d23/f" 1 "targets"
  ok "d24/f" 1 "targets"
  ok "d25/f" 1 "targets"
  ok "d26/f" 1 "targets"
  ok "d27/f" 1 "targets"
  ok "d28/f" 1 "targets"
  ok "d29/f" 1 "targets"
  ok "d30/f" 1 "targets"
  ok "d31/f" 1 "targets"
  ok "d32/f" 1 "targets"
  ok "d33/f" 1 "targets"
  ok "d34/f" 1 "targets"
  ok "d35/f" 1 "targets"
  ok "d36/f" 1 "targets"
  ok "d37/f" 1 "targets"
  ok "d38/f" 1 "targets"
  ok "d39/f" 1 "targets"
  ok "d40/f" 1 "targets"
  ok "d41/f" 1 "targets"
  ok "d42/f" 1 "targets"
  ok "d43/f" 1 "targets"
  ok "d44/f" 1 "targets"
  ok "d45/f" 1 "targets"
  ok "d46/f" 1 "targets"
  ok "d47/f" 1 "targets"
  ok "d48/f" 1 "targets"
  ok "d49/f" 1 "targets"
  ok "d50/f" 1 "targets"
  ok "d51/f" 1 "targets"
  ok "d52/f" 1 "targets"
  ok "d53/f" 1 "targets"
  ok "d54/f" 1 "targets"
  ok "d55/f" 1 "targets"
  ok "d56/f" 1 "targets"
  ok "d57/f" 1 "targets"
  ok "d58/f" 1 "targets"
  ok "d59/f" 1 "targets"
  ok "d60/f" 1 "targets"
  ok "d61/f" 1 "targets"
  ok "d62/f" 1 "targets"
  ok "d63/f" 1 "targets"
  ok "d64/f" 1 "targets"
  ok "d65/f" 1 "targets"
  ok "d66/f" 1 "targets"
  ok "d67/f" 1 "targets"
  ok "d68/f" 1 "targets"
  ok "d69/f" 1 "targets"
  ok "d70/f" 1 "targets"
  $ verify old new a/b/c/d/e/f
  root 1
  end ready
  ok "a/b/c/d/e/f" 1 "targets"

A file of that name in the current folder is none of the folder of targets.
  $ put targets/abc.txt
  > abd
  $ put abc.txt
  > abc
  $ folder d1
  $ put d1/f
  > 1
  $ by 0,1,4 old new abc.txt d1/f d2/f
  root 1
  end ready
  no "abc.txt" HashWrong
  ok "d1/f" 1 "targets"
  ok "d2/f" 1 "targets"
  [1]
  $ copy abc.txt targets/abc.txt
  $ put abc.txt
  > abd
  $ put d1/f
  > 0
  $ by 0,1,4 old new abc.txt d1/f d2/f
  root 1
  end ready
  ok "abc.txt" 3 "targets"
  ok "d1/f" 1 "targets"
  ok "d2/f" 1 "targets"

Metadata files stand directly in their folder.
  $ folder metadata/below
  $ copy metadata/timestamp.json metadata/below/timestamp.json
  $ verify old new
  root 1
  end ready
  $ remove metadata/timestamp.json
  $ verify old new
  root 1
  end timestamp Missing
  [2]

An empty folder is one without files.
  $ remove metadata
  $ folder metadata
  $ verify old new abc.txt
  root 1
  end timestamp Missing
  no "abc.txt" NotSearched
  [2]
  $ keeps new
  root

Folders that aren't there, and one that is a file. No state is written.
  $ remove new
  $ tufcheck verify --state old --metadata none --targets targets --now 2026-01-01T00:00:00Z --out new
  ! tufcheck: folder
  [4]
  $ tufcheck verify --state old --metadata metadata --targets none --now 2026-01-01T00:00:00Z --out new
  ! tufcheck: folder
  [4]
  $ tufcheck verify --state old --metadata metadata --targets script --now 2026-01-01T00:00:00Z --out new
  ! tufcheck: folder
  [4]
  $ has new
  [1]

A folder is read before the state is written, so of both the folder is reported. A state that can't be written is reported in
place of all lines.
  $ tufcheck verify --state old --metadata none --targets targets --now 2026-01-01T00:00:00Z --out none/new
  ! tufcheck: folder
  [4]
  $ verify old none/new
  ! tufcheck: output
  [4]
