// Does in Go what lines.c does in C: lines STATE METADATA TARGETS SECONDS LIMIT OUT PATH..
//
// The outcome must be the same after FetchAll into an empty job, by bytes and by digests; if it
// isn't, the status is 5.
package main

import (
	"crypto/sha256"
	"crypto/sha512"
	"encoding/hex"
	"fmt"
	"io/fs"
	"os"
	"path/filepath"
	"reflect"
	"sort"
	"strconv"
	"strings"
	"time"

	"fullqimi.example/tufcheck"
)

// The words of the program's lines.
var (
	ends = map[tufcheck.End]string{tufcheck.Ready: "ready", tufcheck.AtRoot: "root", tufcheck.AtTimestamp: "timestamp",
		tufcheck.AtSnapshot: "snapshot", tufcheck.AtTargets: "targets"}
	kinds = map[tufcheck.Kind]string{tufcheck.NotFound: "NotFound", tufcheck.LimitReached: "LimitReached",
		tufcheck.NotSearched: "NotSearched"}
	faults = map[tufcheck.Fault]string{tufcheck.NotListed: "NotListed", tufcheck.Missing: "Missing", tufcheck.TooLong: "TooLong",
		tufcheck.LengthWrong: "LengthWrong", tufcheck.HashWrong: "HashWrong", tufcheck.NoKnownHash: "NoKnownHash",
		tufcheck.Malformed: "Malformed", tufcheck.Unsigned: "Unsigned", tufcheck.VersionWrong: "VersionWrong",
		tufcheck.Rollback: "Rollback", tufcheck.Expired: "Expired"}
)

// readFolder returns all files below a folder.
func readFolder(folder string) (map[string][]byte, error) {
	files := map[string][]byte{}
	return files, filepath.WalkDir(folder, func(path string, entry fs.DirEntry, err error) error {
		if err != nil || entry.IsDir() {
			return err
		}
		name, err := filepath.Rel(folder, path)
		if err != nil {
			return err
		}
		files[name], err = os.ReadFile(path)
		return err
	})
}

func quoted(name string) string {
	out := []byte{'"'}
	for at := 0; at < len(name); at++ {
		if it := name[at]; it >= 0x20 && it <= 0x7e && it != '"' && it != '\\' {
			out = append(out, it)
		} else {
			out = append(out, fmt.Sprintf("\\x%02x", it)...)
		}
	}
	return string(append(out, '"'))
}

func word(fault tufcheck.Fault) string {
	if fault == tufcheck.NoFault {
		return ""
	}
	return " " + faults[fault]
}

func printAll(job *tufcheck.Job, outcome *tufcheck.Outcome) {
	fmt.Printf("root %d\nend %s%s\n", outcome.RootVersion, ends[outcome.End], word(outcome.Fault))
	var names []string
	for name := range outcome.Roles {
		names = append(names, name)
	}
	sort.Strings(names)
	for _, name := range names {
		fmt.Printf("role %s %d\n", quoted(name), outcome.Roles[name])
	}
	for at, row := range outcome.Verdicts {
		path := quoted(job.Wanted[at])
		switch row.Kind {
		case tufcheck.Accepted:
			fmt.Printf("ok %s %d %s\n", path, row.Length, quoted(row.Role))
		case tufcheck.RoleRefused:
			fmt.Printf("no %s%s %s\n", path, word(row.Fault), quoted(row.Role))
		case tufcheck.FileRefused:
			fmt.Printf("no %s%s\n", path, word(row.Fault))
		default:
			fmt.Printf("no %s %s\n", path, kinds[row.Kind])
		}
	}
}

func cycle(call string, it tufcheck.Cycle) string {
	return fmt.Sprintf("%s: %d, %s, %s, %d\n", call, it.Status, it.End, it.Fault, it.RootVersion)
}

func digest(data []byte) string {
	if data == nil {
		return "-"
	}
	return hex.EncodeToString(data)
}

func listed(job *tufcheck.Job) (string, error) {
	listing, err := job.List()
	if err != nil {
		return "", err
	}
	out := cycle("list", listing.Cycle)
	for at, row := range listing.Rows {
		out += fmt.Sprintf("%s %s, %s, %d %s%s %s %s\n", quoted(job.Wanted[at]), row.Kind, row.Fault, row.Length,
			quoted(row.Role), quoted(row.Name), digest(row.SHA256), digest(row.SHA512))
	}
	return out, nil
}

func needed(job *tufcheck.Job) (string, error) {
	needs, err := job.Next()
	if err != nil {
		return "", err
	}
	out := cycle("next", needs.Cycle)
	for _, row := range needs.Files {
		optional := 0
		if row.Optional {
			optional = 1
		}
		out += fmt.Sprintf("%s %s %d %d\n", row.Place, quoted(row.Name), row.Most, optional)
	}
	return out, nil
}

// trusted returns a line for each file that a state trusts.
func trusted(state []byte) (string, error) {
	it, err := tufcheck.Show(state)
	if err != nil {
		return "", err
	}
	names := []string{"root", "timestamp", "snapshot", "targets"}
	out := ""
	for at, row := range []tufcheck.TrustedFile{it.Root, it.Timestamp, it.Snapshot, it.Targets} {
		if row.Version != 0 {
			out += fmt.Sprintf("%s %d %d\n", names[at], row.Version, row.Expires.Unix())
		}
	}
	return out, nil
}

// more returns what is listed, what is needed with the job's target files and without any, and what
// the job's state and the new one trust.
func more(job *tufcheck.Job, outcome *tufcheck.Outcome) (string, error) {
	bare := *job
	bare.Targets = nil
	list, err := listed(job)
	if err != nil {
		return "", err
	}
	next, err := needed(job)
	if err != nil {
		return "", err
	}
	first, err := needed(&bare)
	if err != nil {
		return "", err
	}
	old, err := trusted(job.State)
	if err != nil {
		return "", err
	}
	renewed, err := trusted(outcome.State)
	return list + next + first + old + renewed, err
}

// fetched returns the outcome after FetchAll into an empty job.
func fetched(job *tufcheck.Job, found func(tufcheck.Need, []byte) *tufcheck.Found) (*tufcheck.Outcome, error) {
	empty := tufcheck.Job{State: job.State, Wanted: job.Wanted, Moment: job.Moment, Limit: job.Limit}
	_, err := tufcheck.FetchAll(&empty, func(need tufcheck.Need) (*tufcheck.Found, error) {
		files := job.Targets
		if need.Place == tufcheck.MetadataFolder {
			files = job.Metadata
		}
		if data, is := files[need.Name]; is {
			return found(need, data), nil
		}
		return nil, nil
	})
	if err != nil {
		return nil, err
	}
	outcome, err := empty.Verify()
	if err == nil {
		for at := range outcome.Verdicts {
			if outcome.Verdicts[at].Source == tufcheck.InDigests {
				outcome.Verdicts[at].Source = tufcheck.InTargets
			}
		}
	}
	return outcome, err
}

func byBytes(_ tufcheck.Need, data []byte) *tufcheck.Found { return &tufcheck.Found{Bytes: data} }

func byDigests(need tufcheck.Need, data []byte) *tufcheck.Found {
	if need.Place == tufcheck.MetadataFolder {
		return byBytes(need, data)
	}
	low, high := sha256.Sum256(data), sha512.Sum512(data)
	return &tufcheck.Found{Digests: &tufcheck.Digests{Length: uint64(len(data)), SHA256: low[:], SHA512: high[:]}}
}

func update(state, metadata, targets, seconds, limit, out string, wanted []string) (int, error) {
	var job tufcheck.Job
	var err error
	if job.State, err = os.ReadFile(state); err != nil {
		return 0, err
	}
	if job.Metadata, err = readFolder(metadata); err != nil {
		return 0, err
	}
	if job.Targets, err = readFolder(targets); err != nil {
		return 0, err
	}
	moment, err := strconv.ParseInt(seconds, 10, 64)
	if err != nil {
		return 0, err
	}
	if job.Limit, err = strconv.Atoi(limit); err != nil {
		return 0, err
	}
	job.Moment, job.Wanted = time.Unix(moment, 0), wanted
	outcome, err := job.Verify()
	if err != nil {
		return 0, err
	}
	printAll(&job, outcome)
	lines, err := more(&job, outcome)
	if err != nil {
		return 0, err
	}
	if err := os.WriteFile(out, outcome.State, 0o666); err != nil {
		return 0, err
	}
	if err := os.WriteFile(out+".more", []byte(lines), 0o666); err != nil {
		return 0, err
	}
	for _, found := range []func(tufcheck.Need, []byte) *tufcheck.Found{byBytes, byDigests} {
		if again, err := fetched(&job, found); err != nil || !reflect.DeepEqual(again, outcome) {
			return 5, err
		}
	}
	return int(outcome.Status), nil
}

func main() {
	words := os.Args[1:]
	if len(words) < 6 {
		os.Exit(3)
	}
	status, err := update(words[0], words[1], words[2], words[3], words[4], words[5], words[6:])
	if err != nil {
		fmt.Fprintln(os.Stderr, "lines:", strings.TrimSpace(err.Error()))
		status = 4
	}
	os.Exit(status)
}
