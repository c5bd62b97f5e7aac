package ibcplan

import (
	"bufio"
	"encoding/json"
	"io"
	"os/exec"
	"strings"
	"sync"
)

const mostSaid = 1 << 16 // bytes of standard error that are remembered

// A Follower is a process that answers turns as they come, for one goroutine at a time.
type Follower struct {
	Past []Turn // the answers to the turns that the journal had, since it was begun anew

	planner        Planner
	setup, journal string
	turns          int
	lock           sync.Mutex // of run, which Stop reads
	run            *run
}

// Follow starts a process that answers turns as they come, of a setup: a script without turns. With a journal, the path of a
// file, each turn is on the disk before its answer, and a journal that is there is gone on with.
func (planner Planner) Follow(setup, journal string) (*Follower, error) {
	follower := &Follower{planner: planner, setup: setup, journal: journal}
	lines, err := follower.start()
	if err != nil {
		return nil, err
	}
	for _, line := range lines {
		turn, err := answerOf(line)
		if err != nil {
			follower.Close()
			return nil, err
		}
		follower.Past = append(follower.Past, *turn)
	}
	return follower, nil
}

// Turns is how many turns were answered, those of the journal, too.
func (follower *Follower) Turns() int { return follower.turns }

// Answer gives the answer to a turn. After a *Fault all is as before; after a *Failed the process has ended: Restart.
func (follower *Follower) Answer(turn string) (*Turn, error) {
	document, err := documentOf(turn)
	if err != nil {
		return nil, err
	}
	line, err := follower.run.exchange(document)
	if err != nil {
		return nil, err
	}
	if _, isFault := faultOf(line); !isFault {
		follower.turns++
	}
	return answerOf(line)
}

// Restart starts the process again, which ended, by the same journal. It gives the answer to the turn that the process ended
// upon, if the journal has that turn, or else nil: ask again.
func (follower *Follower) Restart() (*Turn, error) {
	if follower.journal == "" {
		return nil, &Misused{"without a journal turns are lost: begin another follower"}
	}
	follower.Close()
	before := follower.turns
	lines, err := follower.start()
	if err != nil || follower.turns <= before {
		return nil, err
	}
	return answerOf(lines[len(lines)-1])
}

// AnswerOrRestart gives the answer to a turn, by another process where one ended: with a journal no turn is lost, and none
// counts twice.
func (follower *Follower) AnswerOrRestart(turn string) (*Turn, error) {
	answer, err := follower.Answer(turn)
	if _, failed := err.(*Failed); !failed {
		return answer, err
	}
	if answer, err = follower.Restart(); err != nil || answer != nil {
		return answer, err
	}
	return follower.Answer(turn)
}

// Said is the end of what the process wrote to standard error, for a log.
func (follower *Follower) Said() string { return follower.run.said.text() }

// Stop kills the process; any goroutine may call it while another one waits for an answer.
func (follower *Follower) Stop() {
	follower.lock.Lock()
	defer follower.lock.Unlock()
	_ = follower.run.command.Process.Kill() // it may have ended
}

// Close ends the process.
func (follower *Follower) Close() {
	follower.Stop()
	follower.run.wait()
}

// start starts the process, and gives the answers to the journal's turns.
func (follower *Follower) start() ([]string, error) {
	setup, err := documentOf(follower.setup)
	if err != nil {
		return nil, err
	}
	words := follower.planner.withWorkers([]string{"follow", "--json", "-"})
	if follower.journal != "" {
		words = append(words, "--journal", follower.journal)
	}
	if follower.planner.NoLabels {
		words = append(words, "--no-labels")
	}
	started, err := startRun(exec.Command(follower.planner.Program, words...))
	if err != nil {
		return nil, err
	}
	follower.lock.Lock()
	follower.run = started
	follower.lock.Unlock()
	lines, turns, err := started.begin(setup)
	if err != nil {
		follower.Close()
		return nil, err
	}
	follower.turns = turns
	return lines, nil
}

// A run is a process and its pipes.
type run struct {
	command *exec.Cmd
	turns   io.Writer
	answers *bufio.Reader
	said    tail
	once    sync.Once
}

func startRun(command *exec.Cmd) (*run, error) {
	turns, err := command.StdinPipe()
	if err != nil {
		return nil, err
	}
	answers, err := command.StdoutPipe()
	if err != nil {
		return nil, err
	}
	started := &run{command: command, turns: turns, answers: bufio.NewReader(answers)}
	command.Stderr = &started.said // somebody has to read it: the process waits where nobody does
	return started, command.Start()
}

// begin tells the setup, reads what the process begins with, and gives the old answers, and how many turns were answered: a
// document with a number that isn't due marks their end, since its fault has the number that is.
func (run *run) begin(setup string) ([]string, int, error) {
	line, err := run.exchange(setup + "turn = 0\n---\n")
	if err != nil {
		return nil, 0, err
	}
	if _, isFault := faultOf(line); isFault {
		return nil, 0, run.ended(line) // of the setup
	}
	var greeting Report
	if err := json.Unmarshal([]byte(line), &greeting); err != nil {
		return nil, 0, err
	}
	if err := checkFormat(greeting.Format); err != nil {
		return nil, 0, err
	}
	var past []string
	for {
		line, err := run.line()
		if err != nil {
			return nil, 0, err
		}
		if fault, isFault := faultOf(line); isFault {
			return past, fault.Due - 1, nil
		}
		past = append(past, line)
	}
}

// exchange writes a document, and reads a line.
func (run *run) exchange(document string) (string, error) {
	if _, err := io.WriteString(run.turns, document); err != nil {
		// it said why, on standard output if the setup has a fault
		line, err := run.line()
		if err != nil {
			return "", err
		}
		return "", run.ended(line)
	}
	return run.line()
}

func (run *run) line() (string, error) {
	line, err := run.answers.ReadString('\n')
	if err != nil {
		return "", run.ended("")
	}
	return line, nil
}

func (run *run) wait() {
	run.once.Do(func() { _ = run.command.Wait() }) // the status is that of ProcessState
}

// ended tells why the process ended, of which this is the last line.
func (run *run) ended(line string) error {
	run.wait()
	return errorOf(run.command.ProcessState.ExitCode(), line, run.said.text())
}

// A tail remembers the end of what is written to it.
type tail struct {
	lock  sync.Mutex
	bytes []byte
}

func (tail *tail) Write(piece []byte) (int, error) {
	tail.lock.Lock()
	defer tail.lock.Unlock()
	tail.bytes = append(tail.bytes, piece...)
	if beyond := len(tail.bytes) - mostSaid; beyond > 0 {
		tail.bytes = append([]byte(nil), tail.bytes[beyond:]...)
	}
	return len(piece), nil
}

func (tail *tail) text() string {
	tail.lock.Lock()
	defer tail.lock.Unlock()
	return string(tail.bytes)
}

// documentOf gives a text as the program reads it before others on standard input: a line --- ends it.
func documentOf(text string) (string, error) {
	for _, line := range strings.Split(text, "\n") {
		if strings.TrimSuffix(line, "\r") == "---" {
			return "", &Misused{"a line of the text is ---, which would end it"}
		}
	}
	return text + "\n---\n", nil
}

func faultOf(line string) (*Fault, bool) {
	var fault Fault
	isFault := strings.HasPrefix(line, `{"fault"`) && json.Unmarshal([]byte(line), &fault) == nil
	return &fault, isFault
}

// answerOf gives the answer of a line, or its fault.
func answerOf(line string) (*Turn, error) {
	if fault, isFault := faultOf(line); isFault {
		return nil, fault
	}
	var turn Turn
	if err := json.Unmarshal([]byte(line), &turn); err != nil {
		return nil, err
	}
	return &turn, nil
}
