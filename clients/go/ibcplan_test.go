package ibcplan

import (
	"errors"
	"os"
	"path/filepath"
	"reflect"
	"strings"
	"testing"
	"time"
)

const examples = "../../examples/"

// planner gives the program that IBCPLAN names; without it nothing is tried.
func planner(t *testing.T) Planner {
	program := os.Getenv("IBCPLAN")
	if program == "" {
		t.Skip("IBCPLAN names no program")
	}
	return Planner{Program: program}
}

func example(t *testing.T, name string) string {
	text, err := os.ReadFile(examples + name)
	if err != nil {
		t.Fatal(err)
	}
	return string(text)
}

func turns(t *testing.T) []string {
	return strings.SplitN(strings.TrimSuffix(example(t, "follow/turns.txt"), "---\n"), "---\n", -1)
}

func wantFault(t *testing.T, err error, number uint64, path string) {
	t.Helper()
	var fault *Fault
	if !errors.As(err, &fault) || fault.Number != number || fault.Path != path {
		t.Errorf("%v, and not fault %d at %s", err, number, path)
	}
}

func want[E error](t *testing.T, err error) {
	t.Helper()
	var wanted E
	if !errors.As(err, &wanted) {
		t.Errorf("%v, and not a %T", err, wanted)
	}
}

func document(t *testing.T, table Table) string {
	text, err := Document(table)
	if err != nil {
		t.Fatal(err)
	}
	return text
}

func TestDocuments(t *testing.T) {
	got := document(t, Table{"b": []any{"x\"\\\n\u007fé😀", -5, true}, "a": []Table{{"c d": uint64(1)}}, "e": [][]any{{"k", 5}}})
	wanted := "\"a\" = [{\"c d\" = 1}]\n\"b\" = [\"x\\\"\\\\\\u000a\\u007fé😀\", -5, true]\n\"e\" = [[\"k\", 5]]\n"
	if got != wanted {
		t.Errorf("%s, and not %s", got, wanted)
	}
	for _, value := range []any{nil, 1.5, map[string]int{}} {
		if text, err := Document(Table{"a": value}); err == nil {
			t.Errorf("%v is written as %s", value, text)
		}
	}
}

func TestPlans(t *testing.T) {
	planner := planner(t)
	report, err := planner.Plan(example(t, "two_clients.toml"))
	if err != nil || report.Format != 1 || len(report.Turns) != 4 || !report.Clients[0].Live {
		t.Error(report, err)
	}
	again, err := Planner{Program: planner.Program, Workers: 3}.Plan(example(t, "two_clients.toml"))
	if err != nil || !reflect.DeepEqual(report, again) {
		t.Error(again, err)
	}
	report, err = planner.Plan(example(t, "packets.toml"))
	if err != nil {
		t.Fatal(err)
	}
	client := report.Turns[0].Clients[0]
	if client.Outcome != Plan || client.Goal.AtLeast != 105 || client.Total.Fee != 109 || client.Messages[0].Kind != "recv" || client.Transactions[0].Gas != 434_000 {
		t.Error(client)
	}
	scripts, _ := filepath.Glob(examples + "*.toml")
	for _, script := range scripts {
		if _, err := planner.Plan(example(t, filepath.Base(script))); err != nil {
			t.Error(script, err)
		}
		if _, err := planner.Explain(example(t, filepath.Base(script))); err != nil {
			t.Error(script, err)
		}
	}
	if version, err := planner.Version(); err != nil || !strings.HasPrefix(version, "ibcplan ") {
		t.Error(version, err)
	}
}

func TestFaults(t *testing.T) {
	planner := planner(t)
	_, err := planner.Plan("version = 9")
	wantFault(t, err, 1005, "version")
	_, err = planner.Plan(document(t, Table{"version": 3, "chain": []Table{{"id": "a b"}}}))
	wantFault(t, err, 1007, "chain[0].id")
	_, err = planner.Follow("version = 9", "")
	wantFault(t, err, 1005, "version")
	_, err = Planner{Program: planner.Program, Workers: 65}.Plan("version = 1")
	want[*Misused](t, err)
	_, err = planner.Follow("version = 1", "/dev/null")
	want[*Misused](t, err)
	_, err = planner.Follow("version = 1", "/no/such/journal")
	want[*Failed](t, err)
	_, err = Planner{Program: "/no/such/program"}.Follow("version = 1", "")
	want[*os.PathError](t, err)
	for path, event := range map[string]int{"event[3]": 3, "event[12].height": 12, "event": -1, "goal[1]": -1, "event[x]": -1} {
		if got := (&Fault{Path: path}).Event(); got != event {
			t.Errorf("%s is in event %d", path, got)
		}
	}
}

func TestCertificates(t *testing.T) {
	planner, script := planner(t), example(t, "smallest.toml")
	if reason, err := planner.Certify(script, example(t, "smallest.certificate")); reason != "" || err != nil {
		t.Error(reason, err)
	}
	wrong := Table{"version": 1, "turn": 1, "client": "zone-on-hub", "answer": "plan", "updates": [][]int{{2, 1}}, "labels": [][]int{{1, 1, 0}, {2, 103, 1}}}
	if reason, err := planner.Certify(script, document(t, wrong)); reason != "601 SourceLabel 1" || err != nil {
		t.Error(reason, err)
	}
}

// answers gives what a follower answers to the turns of an example, with faults between them.
func answers(t *testing.T, follower *Follower) []Turn {
	var found []Turn
	for _, turn := range turns(t) {
		_, err := follower.Answer("from = 3")
		wantFault(t, err, 1004, "from")
		_, err = follower.Answer("# a\r\n---\r\n")
		want[*Misused](t, err)
		answer, err := follower.Answer(turn)
		if err != nil {
			t.Fatal(err)
		}
		found = append(found, *answer)
	}
	return found
}

func follow(t *testing.T, planner Planner, setup, journal string) *Follower {
	t.Helper()
	follower, err := planner.Follow(setup, journal)
	if err != nil {
		t.Fatal(err)
	}
	t.Cleanup(follower.Close)
	return follower
}

func TestFollow(t *testing.T) {
	planner, setup := planner(t), example(t, "follow/setup.toml")
	follower := follow(t, planner, setup, "")
	whole := answers(t, follower)
	if settled := whole[0].Taken(); len(settled) != 2 || settled[0]["done"] != 2 || follower.Turns() != 4 {
		t.Error(settled, follower.Turns())
	}
	if again := answers(t, follow(t, Planner{Program: planner.Program, Workers: 2}, setup, "")); !reflect.DeepEqual(whole, again) {
		t.Error(again)
	}
	follower.Stop()
	for range []int{1, 2} {
		_, err := follower.Answer("")
		want[*Failed](t, err)
	}
	_, err := follower.Restart()
	want[*Misused](t, err)
}

func TestManyFaults(t *testing.T) {
	follower := follow(t, planner(t), "version = 3", "")
	for round := 0; round < 2000; round++ {
		_, err := follower.Answer("no turn")
		wantFault(t, err, 1001, "-")
	}
	if said := follower.Said(); len(said) > mostSaid || !strings.Contains(said, "TOML parse error") {
		t.Error(said)
	}
}

func TestJournals(t *testing.T) {
	planner, setup, journal := planner(t), example(t, "follow/setup.toml"), filepath.Join(t.TempDir(), "journal")
	follower := follow(t, planner, setup, journal)
	whole := answers(t, follower)
	_, err := planner.Follow(setup, journal)
	want[*Misused](t, err)
	if turn, err := follower.Restart(); turn != nil || err != nil || follower.Turns() != 4 {
		t.Error(turn, err, follower.Turns())
	}
	follower.Close()
	if later := follow(t, planner, setup, journal); !reflect.DeepEqual(later.Past, whole) || later.Turns() != 4 {
		t.Error(later.Past)
	}
}

func TestLabels(t *testing.T) {
	planner, setup := planner(t), example(t, "follow/setup.toml")
	whole := answers(t, follow(t, planner, setup, ""))
	planner.NoLabels = true
	bare := answers(t, follow(t, planner, setup, ""))
	for turn := range whole {
		for client := range whole[turn].Clients {
			if found := &whole[turn].Clients[client]; found.Outcome == Plan {
				found.Labels = []Label{}
			}
		}
	}
	if !reflect.DeepEqual(bare, whole) {
		t.Error(bare)
	}
}

func TestLater(t *testing.T) {
	_, err := Planner{Program: "../later.sh"}.Follow(example(t, "follow/setup.toml"), "")
	want[*Misused](t, err)
}

// A turn that the journal has isn't told again, though its answer was never read.
func TestTaken(t *testing.T) {
	planner, setup, journal := planner(t), example(t, "follow/setup.toml"), filepath.Join(t.TempDir(), "journal")
	follower := follow(t, planner, setup, journal)
	size := func() int {
		text, err := os.ReadFile(journal)
		if err != nil {
			t.Fatal(err)
		}
		return len(text)
	}
	before, turn := size(), turns(t)[0]
	if _, err := follower.run.turns.Write([]byte(turn + "---\n")); err != nil {
		t.Fatal(err)
	}
	for size() == before {
		time.Sleep(time.Millisecond)
	}
	follower.Stop()
	wanted, err := follow(t, planner, setup, "").Answer(turn)
	if err != nil {
		t.Fatal(err)
	}
	if answer, err := follower.Restart(); err != nil || !reflect.DeepEqual(answer, wanted) || follower.Turns() != 1 {
		t.Error(answer, err, follower.Turns())
	}
}

func TestKills(t *testing.T) {
	journal := filepath.Join(t.TempDir(), "journal")
	follower := follow(t, planner(t), "version = 3", journal)
	turn := document(t, Table{"from": "2025-03-01T12:00:00Z", "until": "2025-03-01T12:00:00Z"})
	answer := func() {
		if _, err := follower.AnswerOrRestart(turn); err != nil {
			t.Fatal(err)
		}
	}
	for round := 0; round < 20; round++ {
		process, killed := follower.run.command.Process, make(chan bool)
		go func(delay time.Duration) {
			time.Sleep(delay)
			_ = process.Kill() // it may have ended, where a round before was late
			close(killed)
		}(time.Duration(round) * 137 * time.Microsecond)
		for told := 0; told < 40; told++ {
			answer()
		}
		<-killed
	}
	answer()
	follower.Close()
	text, err := os.ReadFile(journal)
	if count := strings.Count(string(text), "[[turn]]"); err != nil || count != 801 || follower.Turns() != 801 {
		t.Error(count, follower.Turns(), err)
	}
}
