package tufcheck

import (
	"bytes"
	"crypto/sha256"
	"crypto/sha512"
	"errors"
	"fmt"
	"os"
	"os/exec"
	"path/filepath"
	"reflect"
	"strings"
	"testing"
	"time"
)

// The moment at which the repositories are good.
var moment = time.Unix(1767225600, 0)

// repository has the Python of checks sign a repository that lists abc.txt, and returns its folder.
func repository(t *testing.T) string {
	folder := t.TempDir()
	checks, err := filepath.Abs("../../../checks")
	if err != nil {
		t.Fatal(err)
	}
	run := exec.Command("python3", "-c",
		`import sys, tuf; tuf.repository(sys.argv[1], tuf.Key(1, 4), {"abc.txt": b"abc"}, low=(tuf.Key(2, 4), {"low.txt": b"low"}))`, folder)
	run.Env = append(os.Environ(), "PYTHONPATH="+checks, "PYTHONDONTWRITEBYTECODE=1")
	if said, err := run.CombinedOutput(); err != nil {
		t.Fatalf("no repository: %v: %s", err, said)
	}
	return folder
}

func file(t *testing.T, path string) []byte {
	data, err := os.ReadFile(path)
	if err != nil {
		t.Fatal(err)
	}
	return data
}

// fetched returns a job with all files of the repository that it needs.
func fetched(t *testing.T, folder string, found func(Need, []byte) *Found, wanted ...string) *Job {
	state, err := First(file(t, folder+"/metadata/1.root.json"))
	if err != nil {
		t.Fatal(err)
	}
	job := &Job{State: state, Wanted: wanted, Moment: moment}
	asked := map[string]bool{}
	absent, err := FetchAll(job, func(need Need) (*Found, error) {
		if asked[need.Name] {
			t.Errorf("%s is asked for again", need.Name)
		}
		asked[need.Name] = true
		place := map[Place]string{MetadataFolder: "/metadata/", TargetsFolder: "/targets/"}[need.Place]
		data, err := os.ReadFile(folder + place + need.Name)
		if err != nil {
			return nil, nil
		}
		return found(need, data), nil
	})
	if err != nil || len(absent) != 1 || absent[0].Name != "2.root.json" || !absent[0].Optional || absent[0].Place != MetadataFolder {
		t.Fatalf("absent %v, %v", absent, err)
	}
	return job
}

func byBytes(_ Need, data []byte) *Found { return &Found{Bytes: data} }

func byDigests(need Need, data []byte) *Found {
	if need.Place == MetadataFolder {
		return &Found{Bytes: data}
	}
	low, high := sha256.Sum256(data), sha512.Sum512(data)
	return &Found{Digests: &Digests{uint64(len(data)), low[:], high[:]}}
}

func verify(t *testing.T, job *Job) *Outcome {
	outcome, err := job.Verify()
	if err != nil {
		t.Fatal(err)
	}
	return outcome
}

func TestVerify(t *testing.T) {
	folder := repository(t)
	job := fetched(t, folder, byBytes, "abc.txt", "low.txt", "nope")
	outcome := verify(t, job)
	want := []Verdict{{Accepted, NoFault, 3, "targets", InTargets, "abc.txt"}, {Accepted, NoFault, 3, "low", InTargets, "low.txt"},
		{Kind: NotFound}}
	if (outcome.Cycle != Cycle{Refused, Ready, NoFault, 1}) || !reflect.DeepEqual(outcome.Verdicts, want) {
		t.Errorf("%+v", outcome)
	}
	if !reflect.DeepEqual(outcome.Roles, map[string]uint64{"low": 1}) {
		t.Errorf("roles %v", outcome.Roles)
	}
	digested := fetched(t, folder, byDigests, "abc.txt", "low.txt", "nope")
	measured := verify(t, digested)
	if measured.Verdicts[1].Source != InDigests || measured.Verdicts[1].File != "low.txt" || len(digested.Targets) != 0 {
		t.Errorf("by digests %+v", measured)
	}
	for at := range measured.Verdicts[:2] {
		measured.Verdicts[at].Source = InTargets
	}
	if len(digested.Digests) != 2 || !reflect.DeepEqual(measured, outcome) {
		t.Errorf("by digests %+v", digested)
	}
	digested.Digests["abc.txt"] = Digests{Length: 3}
	if bare := verify(t, digested); bare.Verdicts[0].Fault != HashWrong {
		t.Errorf("without digests %+v", bare)
	}
	job.State, job.Wanted = outcome.State, job.Wanted[:2]
	if again := verify(t, job); again.Status != Good || !bytes.Equal(again.State, outcome.State) {
		t.Errorf("from the new state %+v", again.Cycle)
	}
	job.Targets["abc.txt"] = []byte("abd")
	if damaged := verify(t, job); damaged.Verdicts[0] != (Verdict{FileRefused, HashWrong, 0, "", InTargets, "abc.txt"}) || damaged.Verdicts[0].Accepted() {
		t.Errorf("damaged %+v", damaged)
	}
	delete(job.Metadata, "timestamp.json")
	if stopped := verify(t, job); stopped.Status != Stopped || stopped.Verdicts[0].Kind != NotSearched {
		t.Errorf("without a timestamp %+v", stopped)
	}
}

func TestList(t *testing.T) {
	job := fetched(t, repository(t), byBytes, "abc.txt", "nope")
	listing, err := job.List()
	if err != nil {
		t.Fatal(err)
	}
	digest := sha256.Sum256([]byte("abc"))
	abc, nope := listing.Rows[0], listing.Rows[1]
	if listing.Status != Refused || abc.Kind != IsListed || abc.Length != 3 || abc.Role != "targets" || abc.Name != "abc.txt" || !bytes.Equal(abc.SHA256, digest[:]) {
		t.Errorf("%+v", listing)
	}
	if nope.Kind != NotFound || nope.SHA256 != nil || nope.SHA512 != nil {
		t.Errorf("%+v", nope)
	}
	if !bytes.Equal(listing.State, verify(t, job).State) {
		t.Error("the listing has another state")
	}
}

func TestShow(t *testing.T) {
	job := fetched(t, repository(t), byBytes, "abc.txt")
	file := TrustedFile{1, time.Date(2030, 1, 1, 0, 0, 0, 0, time.UTC)}
	if first, err := Show(job.State); err != nil || first != (Trusted{Root: file}) {
		t.Errorf("of the first root %+v, %v", first, err)
	}
	if all, err := Show(verify(t, job).State); err != nil || all != (Trusted{file, file, file, file}) {
		t.Errorf("%+v, %v", all, err)
	}
	for _, text := range [][]byte{nil, []byte("{}"), job.State[1:]} {
		if shown, err := Show(text); !errors.Is(err, ErrState) || shown != (Trusted{}) {
			t.Errorf("no state: %+v, %v", shown, err)
		}
	}
}

// Rows and names that need more room than the first guess: the role's file isn't fetched, and each
// verdict names it.
func TestRooms(t *testing.T) {
	job := fetched(t, repository(t), byBytes)
	for at := 0; at < 2000; at++ {
		job.Wanted = append(job.Wanted, fmt.Sprint(at))
	}
	for _, verdict := range verify(t, job).Verdicts {
		if verdict != (Verdict{Kind: RoleRefused, Fault: Missing, Role: "low"}) {
			t.Fatalf("%+v", verdict)
		}
	}
	needs, err := job.Next()
	if err != nil || needs.Status != Refused || len(needs.Files) != 2 || needs.Files[1].Name != "low.json" || needs.Files[1].Optional {
		t.Errorf("%+v, %v", needs, err)
	}
	job.Wanted = nil
	if needs, err := job.Next(); err != nil || needs.Status != Good || len(needs.Files) != 1 {
		t.Errorf("%+v, %v", needs, err)
	}
}

func TestErrors(t *testing.T) {
	if _, err := First([]byte("{}")); !errors.Is(err, ErrState) {
		t.Errorf("no root: %v", err)
	}
	job := fetched(t, repository(t), byBytes, "abc.txt")
	for want, damage := range map[Error]func(*Job){
		ErrState:  func(j *Job) { j.State = j.State[1:] },
		ErrName:   func(j *Job) { j.Wanted = []string{"\xff"} },
		ErrMoment: func(j *Job) { j.Moment = time.Date(10000, 1, 1, 0, 0, 0, 0, time.UTC) },
		ErrLimit:  func(j *Job) { j.Limit = 257 },
	} {
		damaged := *job
		damage(&damaged)
		_, first := damaged.Verify()
		_, second := damaged.List()
		_, third := damaged.Next()
		for _, err := range []error{first, second, third} {
			if !errors.Is(err, want) {
				t.Errorf("%v, not %v", err, want)
			}
		}
	}
	if _, err := (&Job{State: job.State}).Verify(); !errors.Is(err, ErrMoment) {
		t.Errorf("no moment: %v", err)
	}
	if _, err := (&Job{State: job.State, Moment: moment, Limit: -1}).Next(); !errors.Is(err, ErrLimit) {
		t.Errorf("a limit below 0: %v", err)
	}
	if _, err := (&Job{Moment: moment}).List(); !errors.Is(err, ErrState) {
		t.Errorf("no state: %v", err)
	}
}

func TestFetchFails(t *testing.T) {
	job := fetched(t, repository(t), byBytes)
	fault := errors.New("no network")
	if _, err := FetchAll(job, func(Need) (*Found, error) { return nil, fault }); !errors.Is(err, fault) {
		t.Errorf("%v", err)
	}
}

func TestTexts(t *testing.T) {
	if !strings.HasPrefix(Version(), "1.") {
		t.Error(Version())
	}
	texts := map[string]string{
		Accepted.String(): "accepted", Kind(99).String(): "unknown number 99", Ready.String(): "the cycle is ready",
		Expired.String(): "the file has expired", NoFault.String(): "no fault", TargetsFolder.String(): "targets",
		ErrMemory.Error(): "tufcheck: out of memory", Error(-77).Error(): "tufcheck: unknown number -77",
	}
	for text, want := range texts {
		if text != want {
			t.Errorf("%q, not %q", text, want)
		}
	}
}

func TestThreads(t *testing.T) {
	job := fetched(t, repository(t), byBytes, "abc.txt")
	want := verify(t, job)
	found := make(chan *Outcome)
	for at := 0; at < 8; at++ {
		go func() {
			outcome, _ := job.Verify()
			found <- outcome
		}()
	}
	for at := 0; at < 8; at++ {
		if outcome := <-found; !reflect.DeepEqual(outcome, want) {
			t.Errorf("%+v", outcome)
		}
	}
}
