// An updater that fetches from a folder: updater ROOT STATE REPOSITORY SECONDS OUT PATH..
//
// ROOT is the first root file, which is trusted. STATE is the file of the trusted state, which is
// made of ROOT if there is no file of its name. REPOSITORY has the folders metadata and targets.
// SECONDS is the moment, or `now`. Each wanted target that is accepted is installed in the folder
// OUT, under its path.
//
// The new state, and then each target, is written to STATE.new, flushed and renamed to its place.
// So STATE and OUT are on one file system, STATE isn't below OUT, and one updater runs at a time.
//
// The status is that of the outcome, 3 for a usage error, or 4 if something else fails. Another
// transport takes the place of `fetch`.
package main

import (
	"errors"
	"fmt"
	"io"
	"io/fs"
	"math"
	"os"
	"path/filepath"
	"strconv"
	"strings"
	"time"

	"fullqimi.example/tufcheck"
)

// isBelow reports whether a name may be opened below a folder: no part between its `/` is empty,
// `.` or `..`. Whoever signs a delegated role writes names.
func isBelow(name string) bool {
	for _, part := range strings.Split(name, "/") {
		if part == "" || part == "." || part == ".." {
			return false
		}
	}
	return !strings.Contains(name, "\x00")
}

// stateOf returns the trusted state: that of the file, or that of the first root if there is no file
// of its name. Any other error ends the updater: it would forget what was trusted.
func stateOf(root, place string) ([]byte, error) {
	if _, err := os.Lstat(place); !errors.Is(err, fs.ErrNotExist) {
		return os.ReadFile(place)
	}
	first, err := os.ReadFile(root)
	if err != nil {
		return nil, err
	}
	return tufcheck.First(first)
}

// flushed writes a file and flushes it to the device.
func flushed(path string, data []byte) error {
	file, err := os.Create(path)
	if err != nil {
		return err
	}
	_, err = file.Write(data)
	if err == nil {
		err = file.Sync()
	}
	if closed := file.Close(); err == nil {
		err = closed
	}
	return err
}

// replace replaces a file as a whole, by the file `temporary`. If something fails before the end, or
// the power does, the file has its old bytes or the new ones.
func replace(temporary, path string, data []byte) error {
	err := flushed(temporary, data)
	if err == nil {
		err = os.Rename(temporary, path)
	}
	if err != nil {
		os.Remove(temporary)
		return err
	}
	folder, err := os.Open(filepath.Dir(path))
	if err != nil {
		return err
	}
	defer folder.Close()
	return folder.Sync()
}

// read reads a file of at most `most` bytes, and one byte more, by which the library sees that it is
// too long.
func read(path string, most uint64) ([]byte, error) {
	file, err := os.Open(path)
	if err != nil {
		return nil, err
	}
	defer file.Close()
	if most > math.MaxInt64-1 {
		most = math.MaxInt64 - 1
	}
	return io.ReadAll(io.LimitReader(file, int64(most)+1))
}

// fetch fetches a file of the repository. It returns nil if there is none, or if it can't be read.
func fetch(repository string, need tufcheck.Need) *tufcheck.Found {
	folder := map[tufcheck.Place]string{tufcheck.MetadataFolder: "metadata", tufcheck.TargetsFolder: "targets"}[need.Place]
	if folder == "" || !isBelow(need.Name) {
		return nil
	}
	data, err := read(repository+"/"+folder+"/"+need.Name, need.Most)
	if err == nil {
		fmt.Printf("fetched %q\n", need.Name)
		return &tufcheck.Found{Bytes: data}
	}
	if !errors.Is(err, fs.ErrNotExist) {
		// Without the path, which has the name as it is.
		fmt.Fprintf(os.Stderr, "updater: %q: %v\n", need.Name, errors.Unwrap(err))
	}
	return nil
}

// install installs the verified file of an accepted path, whose folders it makes. This updater has
// no digests, so it is one of the targets.
func install(data []byte, path, temporary, out string) error {
	place := out + "/" + path
	if err := os.MkdirAll(filepath.Dir(place), 0o777); err != nil {
		return err
	}
	return replace(temporary, place, data)
}

// update runs one update, and returns the status.
func update(root, place, repository, out string, moment time.Time, wanted []string) (int, error) {
	state, err := stateOf(root, place)
	if err != nil {
		return 4, err
	}
	job := tufcheck.Job{State: state, Wanted: wanted, Moment: moment}
	_, err = tufcheck.FetchAll(&job, func(need tufcheck.Need) (*tufcheck.Found, error) { return fetch(repository, need), nil })
	if err != nil {
		return 4, err
	}
	outcome, err := job.Verify()
	if err != nil {
		return 4, err
	}
	if err := replace(place+".new", place, outcome.State); err != nil {
		return 4, err
	}
	fmt.Printf("root %d, %v: %v\n", outcome.RootVersion, outcome.End, outcome.Fault)
	for at, verdict := range outcome.Verdicts {
		fmt.Printf("%q: %v: %v, %d bytes, role %q\n", wanted[at], verdict.Kind, verdict.Fault, verdict.Length, verdict.Role)
		if verdict.Accepted() {
			if err := install(job.Targets[verdict.File], wanted[at], place+".new", out); err != nil {
				return 4, err
			}
		}
	}
	return int(outcome.Status), nil
}

// momentOf returns the moment that a word names.
func momentOf(word string) (time.Time, bool) {
	if word == "now" {
		return time.Now(), true
	}
	seconds, err := strconv.ParseUint(word, 10, 63)
	return time.Unix(int64(seconds), 0), err == nil
}

func main() {
	words := os.Args[1:]
	usage := len(words) < 6
	for at := 5; at < len(words); at++ {
		usage = usage || !isBelow(words[at])
	}
	if usage {
		fmt.Fprintln(os.Stderr, "usage: updater ROOT STATE REPOSITORY SECONDS OUT PATH..")
		os.Exit(3)
	}
	moment, ok := momentOf(words[3])
	if !ok {
		fmt.Fprintf(os.Stderr, "updater: %q is no moment\n", words[3])
		os.Exit(3)
	}
	status, err := update(words[0], words[1], words[2], words[4], moment, words[5:])
	if err != nil {
		fmt.Fprintf(os.Stderr, "updater: %v\n", err)
	}
	os.Exit(status)
}
