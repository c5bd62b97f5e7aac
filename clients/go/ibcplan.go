// Package ibcplan starts the planner ibcplan, for relayers in Go: scripts, reports with types, and turns as they come.
//
// Scripts, setups and turns are TOML: texts, or what Document makes of a Table. The project's docs/FORMATS.md has the keys of
// scripts and reports, docs/EMBEDDING.md the use.
package ibcplan

import (
	"bytes"
	"encoding/json"
	"errors"
	"fmt"
	"os/exec"
	"strconv"
	"strings"
)

// A Report is that of a script, as "The report as JSON" of docs/FORMATS.md has it.
type Report struct {
	Format  uint64   `json:"ibcplan"`
	Turns   []Turn   `json:"turns"`
	Clients []Health `json:"clients"`
}

// A Turn is the report of a turn. WindowsBack has the hosts whose windows were refused, in version 4.
type Turn struct {
	WindowBack  bool           `json:"window_back"`
	WindowsBack []string       `json:"windows_back"`
	Refused     []RefusedEvent `json:"refused"`
	Clients     []Client       `json:"clients"`
	Settlements []Settlement   `json:"settlements"`
}

// A RefusedEvent is an event by its place in the turn, from 0, and why it was refused.
type RefusedEvent struct {
	Event  uint64 `json:"event"`
	Number uint64 `json:"number"`
	Name   string `json:"name"`
}

// A Settlement has a number and a name if it was refused.
type Settlement struct {
	Client string `json:"client"`
	Batch  uint64 `json:"batch"`
	Done   uint64 `json:"done"`
	Number uint64 `json:"number"`
	Name   string `json:"name"`
}

// The outcomes of a client.
const (
	Held        = "held"
	Idle        = "idle"
	Unreachable = "unreachable"
	Plan        = "plan"
)

// A Client is what a turn has for a client. By Outcome: Held has Batch; Idle has Next; Unreachable has Goal and Labels; Plan has
// all. Of a plan Batch is 0 if nothing is to be sent. In version 4 Beyond is what was asked for above the goal, and is out of
// reach; LeftOut has the messages that stay, since they are over the gas limit alone.
type Client struct {
	ID           string        `json:"id"`
	Outcome      string        `json:"outcome"`
	Goal         Goal          `json:"goal"`
	Beyond       *Goal         `json:"beyond"`
	Labels       []Label       `json:"labels"`
	Updates      []Update      `json:"updates"`
	Total        Total         `json:"total"`
	Messages     []Message     `json:"messages"`
	TooBig       *uint64       `json:"too_big"`
	Batch        uint64        `json:"batch"`
	Proof        uint64        `json:"proof"`
	Transactions []Transaction `json:"transactions"`
	Next         string        `json:"next"`
	LeftOut      []Message     `json:"left_out"`
}

// A Goal is a wanted height: the one that isn't 0.
type Goal struct {
	AtLeast uint64 `json:"at_least"`
	Exactly uint64 `json:"exactly"`
}

// A Label is the least fee at which a height is reached, and the least number of updates at this fee.
type Label struct {
	Height uint64 `json:"height"`
	Fee    uint64 `json:"fee"`
	Count  uint64 `json:"count"`
}

// An Update has votes if it doesn't carry all: the addresses of those that go, of so many commits.
type Update struct {
	Height  uint64   `json:"height"`
	Trusted uint64   `json:"trusted"`
	Fee     uint64   `json:"fee"`
	Commits uint64   `json:"commits"`
	Votes   []string `json:"votes"`
}

// A Total is what all updates cost, and their number.
type Total struct {
	Fee     uint64 `json:"fee"`
	Updates uint64 `json:"updates"`
}

// A Message is a packet message: its kind is recv, ack or timeout.
type Message struct {
	Kind     string `json:"kind"`
	Path     string `json:"path"`
	Sequence uint64 `json:"sequence"`
}

// A Transaction has so many messages from the first on; updates are counted first, from 0.
type Transaction struct {
	First uint64 `json:"first"`
	Count uint64 `json:"count"`
	Gas   uint64 `json:"gas"`
}

// Health tells when a client expires; Expires is empty if nothing is stored.
type Health struct {
	ID      string `json:"id"`
	Expires string `json:"expires"`
	Live    bool   `json:"live"`
}

// Taken is what to tell by `settle` when all transactions of the turn's new batches were taken; lower `done` where
// fewer were.
func (turn *Turn) Taken() []Table {
	var settled []Table
	for _, client := range turn.Clients {
		if client.Outcome == Plan && client.Batch > 0 {
			settled = append(settled, Table{"client": client.ID, "batch": client.Batch, "done": len(client.Transactions)})
		}
	}
	return settled
}

// A Fault of a text: mend it, since the same text fails again. A follower goes on as if it had not been given the turn.
type Fault struct {
	Number uint64 `json:"fault"`
	Name   string `json:"name"`
	Path   string `json:"path"`
	Due    int    `json:"turn"` // of a turn out of order the number that is due
	Advice string `json:"-"`    // what belongs there, for a person; nothing of a turn
}

func (fault *Fault) Error() string {
	return fmt.Sprintf("fault %d %s at %s", fault.Number, fault.Name, fault.Path)
}

// Event is the event of the turn, from 0, that the fault is in, or -1: without it the turn may be right.
func (fault *Fault) Event() int {
	place, _, _ := strings.Cut(strings.TrimPrefix(fault.Path, "event["), "]")
	event, err := strconv.Atoi(place)
	if err != nil || !strings.HasPrefix(fault.Path, "event[") {
		return -1
	}
	return event
}

// Misused says that the command line is wrong; or that a journal is another one, damaged, or in use.
type Misused struct{ Said string }

func (misused *Misused) Error() string { return "ibcplan was called wrongly: " + misused.Said }

// Failed says that memory, a file or the process failed: the same call may succeed later. Status is -1 after a signal.
type Failed struct {
	Status int
	Said   string
}

func (failed *Failed) Error() string {
	return fmt.Sprintf("ibcplan failed with status %d: %s", failed.Status, failed.Said)
}

// errorOf gives the error that an exit status, the fault on standard output and standard error tell.
func errorOf(status int, output, said string) error {
	said = strings.TrimSpace(said)
	if fault, isFault := faultOf(output); status == 1 && isFault {
		_, advice, _ := strings.Cut(said, fault.Error()+"\n")
		fault.Advice = strings.TrimSpace(advice)
		return fault
	}
	if status == 1 || status == 2 {
		return &Misused{said}
	}
	return &Failed{status, said}
}

// A Planner starts the program of this path, or of this name on the path; with Workers, 1 to 64, by so many threads. With NoLabels
// the answers of followers have no labels: where a chain has thousands of headers, they are most of an answer.
type Planner struct {
	Program  string
	Workers  int
	NoLabels bool
}

func (planner Planner) withWorkers(words []string) []string {
	if planner.Workers == 0 {
		return words
	}
	return append(words, "--workers", strconv.Itoa(planner.Workers))
}

// run gives the status of a run, what it wrote to standard output and to standard error.
func (planner Planner) run(input string, words ...string) (int, []byte, string, error) {
	var output, said bytes.Buffer
	command := exec.Command(planner.Program, words...)
	command.Stdin, command.Stdout, command.Stderr = strings.NewReader(input), &output, &said
	err := command.Run()
	var exit *exec.ExitError
	if err != nil && !errors.As(err, &exit) {
		return 0, nil, "", err
	}
	return command.ProcessState.ExitCode(), output.Bytes(), said.String(), nil
}

// written gives what a run writes that ends well.
func (planner Planner) written(input string, words ...string) ([]byte, error) {
	status, output, said, err := planner.run(input, words...)
	if err == nil && status != 0 {
		err = errorOf(status, string(output), said)
	}
	return output, err
}

// Plan gives the report of a script.
func (planner Planner) Plan(script string) (*Report, error) {
	words := []string{"plan", "--json", "-"}
	if planner.Workers > 0 {
		words = planner.withWorkers([]string{"run", "--json", "-"})
	}
	output, err := planner.written(script, words...)
	if err != nil {
		return nil, err
	}
	var report Report
	if err := json.Unmarshal(output, &report); err != nil {
		return nil, err
	}
	if err := checkFormat(report.Format); err != nil {
		return nil, err
	}
	return &report, nil
}

func checkFormat(format uint64) error {
	if format != 1 && format != 3 && format != 4 {
		return &Misused{fmt.Sprintf("reports of format %d are newer than this package", format)}
	}
	return nil
}

// Explain gives the explanation of a script, as docs/FORMATS.md has it.
func (planner Planner) Explain(script string) (json.RawMessage, error) {
	return planner.written(script, "explain", "--json", "-")
}

// Certify gives the first reason against a certificate, as "601 SourceLabel 5"; none if its updates are the plan.
func (planner Planner) Certify(script, certificate string) (string, error) {
	document, err := documentOf(script)
	if err != nil {
		return "", err
	}
	status, output, said, err := planner.run(document+certificate, "certify", "--json", "-")
	if err == nil && status != 0 && status != 3 {
		err = errorOf(status, string(output), said)
	}
	if err != nil || status == 0 {
		return "", err
	}
	var against struct {
		Number uint64   `json:"number"`
		Name   string   `json:"name"`
		At     []uint64 `json:"at"`
	}
	if err := json.Unmarshal(output, &against); err != nil {
		return "", err
	}
	return strings.TrimRight(fmt.Sprintf("%d %s %s", against.Number, against.Name, strings.Trim(fmt.Sprint(against.At), "[]")), " "), nil
}

// Version gives the name of the program and its version, as "ibcplan 0.1.0".
func (planner Planner) Version() (string, error) {
	output, err := planner.written("", "--version")
	return strings.TrimSpace(string(output)), err
}
