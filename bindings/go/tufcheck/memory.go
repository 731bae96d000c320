package tufcheck

// #include <stdlib.h>
// #include <tufcheck.h>
import "C"

import "unsafe"

// An arena is the memory of C that one call uses. The job and the answer point to other memory, so
// by the rules of cgo none of it may be Go's. Like Go's own allocations, those of an arena end the
// program if there is no memory.
type arena struct {
	blocks []unsafe.Pointer
}

func (a *arena) free() {
	for _, block := range a.blocks {
		C.free(block)
	}
}

// array returns room for rows, and a pointer to it, which isn't null, also for no row. What the rows
// are isn't known before they are written.
func array[T any](a *arena, count int) (*T, []T) {
	var row T
	block := C.malloc(C.size_t(count)*C.size_t(unsafe.Sizeof(row)) + 1)
	a.blocks = append(a.blocks, block)
	return (*T)(block), unsafe.Slice((*T)(block), count)
}

// copied returns a copy of bytes in C's memory.
func copied[B []byte | string](a *arena, data B) C.tufcheck_bytes {
	first, room := array[byte](a, len(data))
	copy(room, data)
	return C.tufcheck_bytes{data: (*C.uint8_t)(first), len: C.size_t(len(data))}
}

// files returns the files in the layout of C, and their names in the same order.
func files(a *arena, all map[string][]byte) (*C.tufcheck_file, C.size_t, []string) {
	first, rows := array[C.tufcheck_file](a, len(all))
	var names []string
	for name, data := range all {
		rows[len(names)] = C.tufcheck_file{name: copied(a, name), bytes: copied(a, data)}
		names = append(names, name)
	}
	return first, C.size_t(len(all)), names
}

// digests returns the digests in the layout of C, and their names in the same order.
func digests(a *arena, all map[string]Digests) (*C.tufcheck_digests, C.size_t, []string) {
	first, rows := array[C.tufcheck_digests](a, len(all))
	var names []string
	for name, it := range all {
		row := C.tufcheck_digests{name: copied(a, name), length: C.uint64_t(it.Length)}
		row.has_sha256 = given(octets(row.sha256[:]), it.SHA256)
		row.has_sha512 = given(octets(row.sha512[:]), it.SHA512)
		rows[len(names)] = row
		names = append(names, name)
	}
	return first, C.size_t(len(all)), names
}

// given copies a digest of the right length, and returns whether it has that.
func given(into, digest []byte) C.uint8_t {
	if len(digest) != len(into) {
		return 0
	}
	copy(into, digest)
	return 1
}

// octets returns C's bytes as Go's.
func octets(data []C.uint8_t) []byte {
	return unsafe.Slice((*byte)(unsafe.Pointer(&data[0])), len(data))
}

// inC returns the job in the layout of C, and the names of its files in the order that they have
// there. It fails if the library is another one, or for a number below 0.
func (j *Job) inC(a *arena) (*C.tufcheck_job, map[Source][]string, error) {
	if err := sameVersion(); err != nil {
		return nil, nil, err
	}
	if j.Moment.Unix() < 0 {
		return nil, nil, ErrMoment
	}
	limit := j.Limit
	if limit == 0 {
		limit = DefaultLimit
	}
	if limit < 0 {
		return nil, nil, ErrLimit
	}
	job, _ := array[C.tufcheck_job](a, 1)
	*job = C.tufcheck_job{size: C.sizeof_tufcheck_job, moment: C.uint64_t(j.Moment.Unix()), limit: C.size_t(limit)}
	job.state = copied(a, j.State)
	names := map[Source][]string{}
	job.metadata, job.metadata_count, _ = files(a, j.Metadata)
	job.targets, job.target_count, names[InTargets] = files(a, j.Targets)
	job.digests, job.digest_count, names[InDigests] = digests(a, j.Digests)
	first, rows := array[C.tufcheck_bytes](a, len(j.Wanted))
	for at, path := range j.Wanted {
		rows[at] = copied(a, path)
	}
	job.wanted, job.wanted_count = first, C.size_t(len(rows))
	return job, names, nil
}
