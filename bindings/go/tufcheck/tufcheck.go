// Package tufcheck verifies a repository of The Update Framework, by the C library libtufcheck.
//
// An updater keeps a trusted state, which begins with a root file that it was shipped with, by
// [First]. For each update it makes a [Job], fetches what the job needs by [FetchAll], and calls
// [Job.Verify]. It keeps the new state whenever there is an outcome, installs only the bytes that
// were verified, and opens no name from metadata as a path before a check: what is owed and what is
// proved is in the library's page EMBEDDING.
//
// The package needs the header tufcheck.h and the library. Where the compiler doesn't look for them,
// CGO_CFLAGS and CGO_LDFLAGS name their folders. All calls may run at the same time.
package tufcheck

// #cgo LDFLAGS: -ltufcheck
// #include <tufcheck.h>
import "C"

import (
	"fmt"
	"time"
	"unsafe"
)

// DefaultLimit is the limit of a job whose Limit is 0.
const DefaultLimit = 32

// Digests are a target file by its length in bytes and the digests of its bytes. A digest of another
// length than its own, as nil, isn't given. Those that are listed are needed: [Job.List] says which.
type Digests struct {
	Length uint64
	SHA256 []byte
	SHA512 []byte
}

// A Job is the input of a call. Each call copies it to C's memory, so give large target files by
// their digests. A name in Digests counts before the same one in Targets.
type Job struct {
	State    []byte // the text of the trusted state: of First, or of the last outcome
	Wanted   []string
	Moment   time.Time // from 1970 to the year 9999
	Metadata map[string][]byte
	Targets  map[string][]byte
	Digests  map[string]Digests
	Limit    int // maximum number of roles that a search visits, 1 to 256, or 0 for DefaultLimit
}

// A Cycle says how the client workflow ran.
type Cycle struct {
	Status      Status
	End         End
	Fault       Fault // why the cycle stopped
	RootVersion uint64
}

// A Verdict is that of a wanted path.
type Verdict struct {
	Kind   Kind
	Fault  Fault  // why a file is refused
	Length uint64 // the length of an accepted file in bytes, or 0
	Role   string // the role that lists the accepted file, or whose own file is refused, or ""
	Source Source // the map of the job that has the file that was checked, or NoSource
	File   string // the name of that file: install no other one
}

// Accepted reports whether the file is accepted.
func (v Verdict) Accepted() bool { return v.Kind == Accepted }

// An Outcome is that of Verify. Keep the state, whatever the status is.
type Outcome struct {
	Cycle
	State    []byte            // the text of the new trusted state
	Verdicts []Verdict         // of the wanted paths, in order
	Roles    map[string]uint64 // the version of each delegated role that was accepted
}

// A Listed is what roles list of a wanted path. A digest that isn't listed is nil.
type Listed struct {
	Kind   Kind // IsListed, or why no role lists the path
	Fault  Fault
	Length uint64
	Role   string
	Name   string // the first name under which the file is looked up, or ""
	SHA256 []byte
	SHA512 []byte
}

// A Listing is that of List. Its status is Refused if some path isn't listed.
type Listing struct {
	Cycle
	State []byte
	Rows  []Listed // of the wanted paths, in order
}

// A Need is a file to fetch. Whoever opens it must refuse a name that leads out of a folder.
type Need struct {
	Place Place
	Name  string
	Most  uint64 // the most bytes of the file: fetch at most one byte more
	// Optional says that the file may be absent for good: the root of the next version, and a
	// target's file under a name that isn't its last. With one of these, others may no longer be
	// needed.
	Optional bool
}

// Needs are the files that the cycle looked up and didn't find. The status is Refused if some isn't
// optional, else Stopped if the cycle stopped, else Good.
type Needs struct {
	Cycle
	Files []Need
}

// A TrustedFile is a file that a state trusts. The zero value stands for one that it doesn't have.
type TrustedFile struct {
	Version uint64 // from 1 on, or 0 if no such file is trusted
	Expires time.Time
}

// Trusted is what a state trusts: its top-level files, of which the root is always one.
type Trusted struct {
	Root, Timestamp, Snapshot, Targets TrustedFile
}

// Version returns the version of the library.
func Version() string {
	number := uint32(C.tufcheck_version())
	return fmt.Sprintf("%d.%d.%d", number/1000000, number/1000%1000, number%1000)
}

// First returns the text of the state of a first root file, which the caller trusts. Call it only
// if there is no state: one that can't be read is an error.
func First(root []byte) ([]byte, error) {
	var a arena
	defer a.free()
	if err := sameVersion(); err != nil {
		return nil, err
	}
	data := copied(&a, root)
	used, _ := array[C.size_t](&a, 1)
	*used = C.size_t(2*len(root) + 64)
	for {
		state, room := array[C.uint8_t](&a, int(*used))
		result := C.tufcheck_first(data.data, data.len, state, C.size_t(len(room)), used)
		if result == C.TUFCHECK_NO_ROOM {
			continue
		}
		if err := failure(result); err != nil {
			return nil, err
		}
		return bytesOf(state, *used), nil
	}
}

// Show returns which files a state trusts, and when each expires. It checks no signature and no
// moment.
func Show(state []byte) (Trusted, error) {
	var a arena
	defer a.free()
	if err := sameVersion(); err != nil {
		return Trusted{}, err
	}
	data := copied(&a, state)
	trusted, _ := array[C.tufcheck_trusted](&a, 1)
	*trusted = C.tufcheck_trusted{size: C.sizeof_tufcheck_trusted}
	if err := failure(C.tufcheck_show(data.data, data.len, trusted)); err != nil {
		return Trusted{}, err
	}
	return Trusted{trustedFile(&trusted.root), trustedFile(&trusted.timestamp),
		trustedFile(&trusted.snapshot), trustedFile(&trusted.targets)}, nil
}

// VerifyLMS reports whether an LMS signature of a message is valid for a public key of 56 bytes (RFC
// 8554).
func VerifyLMS(key, message, signature []byte) (bool, error) {
	var a arena
	defer a.free()
	if err := sameVersion(); err != nil {
		return false, err
	}
	k, m, s := copied(&a, key), copied(&a, message), copied(&a, signature)
	return C.tufcheck_lms_verify(k.data, k.len, m.data, m.len, s.data, s.len) == 1, nil
}

// Verify runs one cycle of the client workflow.
func (j *Job) Verify() (*Outcome, error) {
	var a arena
	defer a.free()
	job, names, err := j.inC(&a)
	if err != nil {
		return nil, err
	}
	rooms := j.rooms(64)
	for {
		answer, _ := array[C.tufcheck_answer](&a, 1)
		*answer = C.tufcheck_answer{size: C.sizeof_tufcheck_answer, state_room: rooms.state_len,
			verdict_room: rooms.verdict_count, role_room: rooms.role_count, name_room: rooms.name_len}
		answer.state, _ = array[C.uint8_t](&a, int(rooms.state_len))
		answer.verdicts, _ = array[C.tufcheck_verdict](&a, int(rooms.verdict_count))
		answer.roles, _ = array[C.tufcheck_role](&a, int(rooms.role_count))
		answer.names, _ = array[C.uint8_t](&a, int(rooms.name_len))
		result := C.tufcheck_verify(job, answer)
		if result == C.TUFCHECK_NO_ROOM {
			rooms = answer.summary
			continue
		}
		if err := failure(result); err != nil {
			return nil, err
		}
		return outcome(result, answer, names), nil
	}
}

// List returns what roles list of the wanted paths, without looking at target files.
func (j *Job) List() (*Listing, error) {
	var a arena
	defer a.free()
	job, _, err := j.inC(&a)
	if err != nil {
		return nil, err
	}
	rooms := j.rooms(0)
	for {
		listing, _ := array[C.tufcheck_listing](&a, 1)
		*listing = C.tufcheck_listing{size: C.sizeof_tufcheck_listing, state_room: rooms.state_len,
			row_room: rooms.verdict_count, name_room: rooms.name_len}
		listing.state, _ = array[C.uint8_t](&a, int(rooms.state_len))
		listing.rows, _ = array[C.tufcheck_listed](&a, int(rooms.verdict_count))
		listing.names, _ = array[C.uint8_t](&a, int(rooms.name_len))
		result := C.tufcheck_list(job, listing)
		if result == C.TUFCHECK_NO_ROOM {
			rooms = listing.summary
			continue
		}
		if err := failure(result); err != nil {
			return nil, err
		}
		return listed(result, listing), nil
	}
}

// Next returns the files to fetch next.
func (j *Job) Next() (*Needs, error) {
	var a arena
	defer a.free()
	job, _, err := j.inC(&a)
	if err != nil {
		return nil, err
	}
	rooms := j.rooms(0)
	for {
		needs, _ := array[C.tufcheck_needs](&a, 1)
		*needs = C.tufcheck_needs{size: C.sizeof_tufcheck_needs, row_room: rooms.verdict_count, name_room: rooms.name_len}
		needs.rows, _ = array[C.tufcheck_need](&a, int(rooms.verdict_count))
		needs.names, _ = array[C.uint8_t](&a, int(rooms.name_len))
		result := C.tufcheck_next(job, needs)
		if result == C.TUFCHECK_NO_ROOM {
			rooms = needs.summary
			continue
		}
		if err := failure(result); err != nil {
			return nil, err
		}
		return needed(result, needs), nil
	}
}

// rooms guesses how much room is needed: a state has files of the job in hexadecimal, or those of
// the state before.
func (j *Job) rooms(roles int) C.tufcheck_summary {
	state := len(j.State) + 64
	for _, data := range j.Metadata {
		state += 2 * len(data)
	}
	return C.tufcheck_summary{state_len: C.size_t(state), verdict_count: C.size_t(len(j.Wanted)),
		role_count: C.size_t(roles), name_len: 4096}
}

func cycle(result C.int32_t, summary *C.tufcheck_summary) Cycle {
	return Cycle{Status(result), End(summary.end), Fault(summary.fault), uint64(summary.root_version)}
}

func outcome(result C.int32_t, answer *C.tufcheck_answer, files map[Source][]string) *Outcome {
	summary := &answer.summary
	names := bytesOf(answer.names, summary.name_len)
	found := &Outcome{Cycle: cycle(result, summary), State: bytesOf(answer.state, summary.state_len), Roles: map[string]uint64{}}
	for _, row := range unsafe.Slice(answer.verdicts, int(summary.verdict_count)) {
		verdict := Verdict{Kind: Kind(row.kind), Fault: Fault(row.fault), Length: uint64(row.length),
			Role: cut(names, row.role_at, row.role_len), Source: Source(row.source)}
		if all := files[verdict.Source]; uint64(row.file_at) < uint64(len(all)) {
			verdict.File = all[row.file_at]
		}
		found.Verdicts = append(found.Verdicts, verdict)
	}
	for _, row := range unsafe.Slice(answer.roles, int(summary.role_count)) {
		found.Roles[cut(names, row.name_at, row.name_len)] = uint64(row.version)
	}
	return found
}

func listed(result C.int32_t, listing *C.tufcheck_listing) *Listing {
	summary := &listing.summary
	names := bytesOf(listing.names, summary.name_len)
	found := &Listing{Cycle: cycle(result, summary), State: bytesOf(listing.state, summary.state_len)}
	for _, row := range unsafe.Slice(listing.rows, int(summary.verdict_count)) {
		it := Listed{Kind: Kind(row.kind), Fault: Fault(row.fault), Length: uint64(row.length),
			Role: cut(names, row.role_at, row.role_len), Name: cut(names, row.name_at, row.name_len)}
		if row.has_sha256 == 1 {
			it.SHA256 = append([]byte(nil), octets(row.sha256[:])...)
		}
		if row.has_sha512 == 1 {
			it.SHA512 = append([]byte(nil), octets(row.sha512[:])...)
		}
		found.Rows = append(found.Rows, it)
	}
	return found
}

func needed(result C.int32_t, needs *C.tufcheck_needs) *Needs {
	summary := &needs.summary
	names := bytesOf(needs.names, summary.name_len)
	found := &Needs{Cycle: cycle(result, summary)}
	for _, row := range unsafe.Slice(needs.rows, int(summary.verdict_count)) {
		found.Files = append(found.Files, Need{Place(row.place), cut(names, row.name_at, row.name_len), uint64(row.most),
			row.optional == 1})
	}
	return found
}

// trustedFile returns the file of a row.
func trustedFile(row *C.tufcheck_trusted_file) TrustedFile {
	if row.version == 0 {
		return TrustedFile{}
	}
	return TrustedFile{uint64(row.version), time.Unix(int64(row.expires), 0).UTC()}
}

// bytesOf returns a copy of bytes of C, which isn't nil.
func bytesOf(first *C.uint8_t, count C.size_t) []byte {
	return append([]byte{}, unsafe.Slice((*byte)(first), int(count))...)
}

// cut returns a name of the rows.
func cut(names []byte, at, count C.size_t) string {
	return string(names[at : at+count])
}
