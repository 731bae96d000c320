package tufcheck

// A Found is a file that was fetched: its bytes, or of a target file its digests instead.
type Found struct {
	Bytes   []byte
	Digests *Digests
}

// add adds a file to the job.
func (j *Job) add(need Need, found *Found) {
	switch {
	case found.Digests != nil && need.Place == TargetsFolder:
		if j.Digests == nil {
			j.Digests = map[string]Digests{}
		}
		j.Digests[need.Name] = *found.Digests
	case need.Place == TargetsFolder:
		if j.Targets == nil {
			j.Targets = map[string][]byte{}
		}
		j.Targets[need.Name] = found.Bytes
	case need.Place == MetadataFolder:
		if j.Metadata == nil {
			j.Metadata = map[string][]byte{}
		}
		j.Metadata[need.Name] = found.Bytes
	}
}

// FetchAll adds files to the job until fetch has none that is needed, and returns those that it had
// not. It calls fetch once for each name. fetch returns nil if there is no such file; its error ends
// FetchAll.
func FetchAll(job *Job, fetch func(Need) (*Found, error)) ([]Need, error) {
	type key struct {
		place Place
		name  string
	}
	asked := map[key]bool{}
	for {
		needs, err := job.Next()
		if err != nil {
			return nil, err
		}
		var optional, others []Need
		for _, need := range needs.Files {
			switch {
			case asked[key{need.Place, need.Name}]:
			case need.Optional:
				optional = append(optional, need)
			default:
				others = append(others, need)
			}
		}
		// With an optional file, others may no longer be needed.
		if len(optional) == 0 {
			optional = others
		}
		if len(optional) == 0 {
			return needs.Files, nil
		}
		for _, need := range optional {
			asked[key{need.Place, need.Name}] = true
			found, err := fetch(need)
			if err != nil {
				return nil, err
			}
			if found != nil {
				job.add(need, found)
			}
		}
	}
}
