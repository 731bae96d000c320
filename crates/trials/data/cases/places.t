Where a state is stored. It is written beside its place and moved there, so the place has the old state or the new one.
  $ make
  > @keys
  > write root 1 1
  > @files
  $ init old
  root 1
  $ verify old good abc.txt
  root 1
  end ready
  ok "abc.txt" 3 "targets"

Over another state, which keeps its mode, and nothing is left beside it.
  $ copy old state
  $ unlock state
  $ mode state
  700
  $ verify state state abc.txt
  root 1
  end ready
  ok "abc.txt" 3 "targets"
  $ same state good
  $ mode state
  700
  $ has state.1.new
  [1]
  $ tufcheck replay --state state --now 2026-01-01T00:00:00Z --out state abc.txt .
  cycle 1
  root 1
  end ready
  ok "abc.txt" 3 "targets"
  $ mode state
  700
  $ init state
  root 1
  $ same state old
  $ mode state
  700

Temporary files that runs which ended have left are removed. What isn't a plain file stays, and is not used.
  $ put new.1.new
  > left
  $ folder new.2.new
  $ put new.4.new
  $ verify old new abc.txt
  root 1
  end ready
  ok "abc.txt" 3 "targets"
  $ same new good
  $ has new.1.new
  [1]
  $ has new.2.new
  $ has new.3.new
  [1]
  $ has new.4.new
  [1]

A link is followed to its file, also where that isn't there yet, and stays a link.
  $ folder below
  $ copy old below/state
  $ link below/state link
  $ verify link link abc.txt
  root 1
  end ready
  ok "abc.txt" 3 "targets"
  $ same below/state good
  $ remove below/state
  $ verify old link abc.txt
  root 1
  end ready
  ok "abc.txt" 3 "targets"
  $ same below/state good

A state that may not be written stays.
  $ copy old kept
  $ freeze kept
  $ verify kept kept abc.txt
  ! tufcheck: output
  [4]
  $ same kept old

A state in a folder that may not be written stays.
  $ folder place
  $ init place/state
  root 1
  $ freeze place
  $ verify place/state place/state abc.txt
  ! tufcheck: output
  [4]
  $ same place/state old
  $ unlock place

A device is written in place. This one refuses all.
  $ verify old /dev/full abc.txt
  ! tufcheck: output
  [4]
