package tufcheck

// #include <tufcheck.h>
import "C"

import (
	"errors"
	"fmt"
)

// A Status is the result of a call that has an answer.
type Status int32

const (
	Good    Status = C.TUFCHECK_GOOD    // the cycle is ready, and all is accepted, listed or there
	Refused Status = C.TUFCHECK_REFUSED // something is refused, not listed or missing
	Stopped Status = C.TUFCHECK_STOPPED // the cycle stopped
)

// An Error is the result of a call that has no answer. A later library may have others than these.
type Error int32

const (
	ErrMemory Error = C.TUFCHECK_NO_MEMORY // out of memory
	ErrState  Error = C.TUFCHECK_NO_STATE  // the state, or the first root, is not one
	ErrName   Error = C.TUFCHECK_NO_NAME   // a file's name or a wanted path is not UTF-8
	ErrMoment Error = C.TUFCHECK_NO_MOMENT // the moment is before 1970, or past the year 9999
	ErrLimit  Error = C.TUFCHECK_NO_LIMIT  // the limit is not 1 to 256
)

// ErrVersion means that the library has another first version number than the header.
var ErrVersion = errors.New("tufcheck: the library is of another version")

// An End says how a cycle ends: Ready, or the step at which it stopped.
type End uint32

const (
	Ready       End = C.TUFCHECK_READY
	AtRoot      End = C.TUFCHECK_AT_ROOT
	AtTimestamp End = C.TUFCHECK_AT_TIMESTAMP
	AtSnapshot  End = C.TUFCHECK_AT_SNAPSHOT
	AtTargets   End = C.TUFCHECK_AT_TARGETS
)

// A Kind is that of a verdict, or of a row of a listing. Only Accepted means that a file is
// accepted, also with a later library that has other kinds.
type Kind uint32

const (
	Accepted     Kind = C.TUFCHECK_ACCEPTED      // the file has the length and the digests that a role lists
	NotFound     Kind = C.TUFCHECK_NOT_FOUND     // no role lists the path
	LimitReached Kind = C.TUFCHECK_LIMIT_REACHED // the search would visit more roles than the limit
	RoleRefused  Kind = C.TUFCHECK_ROLE_REFUSED  // the search came to a role whose own file is refused
	FileRefused  Kind = C.TUFCHECK_FILE_REFUSED  // a role lists the path, but its file is refused
	NotSearched  Kind = C.TUFCHECK_NOT_SEARCHED  // the cycle stopped before any search
	IsListed     Kind = C.TUFCHECK_LISTED        // in a listing: a role lists the path
)

// A Fault says why a file is refused: the first check that it fails. It is NoFault if none is.
type Fault uint32

const (
	NoFault      Fault = 0
	NotListed    Fault = C.TUFCHECK_NOT_LISTED    // the snapshot doesn't list the role's file
	Missing      Fault = C.TUFCHECK_MISSING       // the job has no file of its name
	TooLong      Fault = C.TUFCHECK_TOO_LONG      // it is longer than the limit of its kind
	LengthWrong  Fault = C.TUFCHECK_LENGTH_WRONG  // it has another length than is listed
	HashWrong    Fault = C.TUFCHECK_HASH_WRONG    // it has another digest than is listed
	NoKnownHash  Fault = C.TUFCHECK_NO_KNOWN_HASH // no digest of a known kind is listed
	Malformed    Fault = C.TUFCHECK_MALFORMED     // it isn't a file of its kind
	Unsigned     Fault = C.TUFCHECK_UNSIGNED      // fewer keys signed it than the threshold
	VersionWrong Fault = C.TUFCHECK_VERSION_WRONG // it has another version than is expected
	Rollback     Fault = C.TUFCHECK_ROLLBACK      // it is older than what is trusted
	Expired      Fault = C.TUFCHECK_EXPIRED       // it has expired
)

// A Place is where a file belongs that is to be fetched.
type Place uint32

const (
	MetadataFolder Place = C.TUFCHECK_METADATA
	TargetsFolder  Place = C.TUFCHECK_TARGETS
)

// A Source is the map of the job that has the file of a verdict.
type Source uint32

const (
	NoSource  Source = 0
	InTargets Source = C.TUFCHECK_IN_TARGETS
	InDigests Source = C.TUFCHECK_IN_DIGESTS
)

// text returns the library's text of a number, with the number if it has none.
func text(number int32) string {
	words := C.GoString(C.tufcheck_text(C.int32_t(number)))
	if words == "unknown number" {
		return fmt.Sprintf("%s %d", words, number)
	}
	return words
}

func (s Status) String() string { return text(int32(s)) }
func (e End) String() string    { return text(int32(e)) }
func (k Kind) String() string   { return text(int32(k)) }
func (f Fault) String() string  { return text(int32(f)) }
func (p Place) String() string  { return text(int32(p)) }
func (s Source) String() string { return text(int32(s)) }

// Error returns the text of the error.
func (e Error) Error() string { return "tufcheck: " + text(int32(e)) }

// failure returns the error of a result that isn't a status.
func failure(result C.int32_t) error {
	if result < C.TUFCHECK_GOOD || result > C.TUFCHECK_STOPPED {
		return Error(result)
	}
	return nil
}

// sameVersion fails if the library isn't that of the header.
func sameVersion() error {
	if C.tufcheck_version()/1000000 != C.TUFCHECK_VERSION/1000000 {
		return ErrVersion
	}
	return nil
}
