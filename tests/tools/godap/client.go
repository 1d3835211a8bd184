// A client of the debug adapter over the library go-dap, which decodes each message by the protocol's schema.
//
//	client ADAPTER SCRIPT LINE OP
//
// It launches the script, sets a breakpoint on the line, goes on to it, steps back to the start and on to the end, and back once
// more. At each length the stack has to be the same each time. OP is the line's text.
package main

import (
	"bufio"
	"encoding/json"
	"fmt"
	"io"
	"os"
	"os/exec"
	"path/filepath"
	"reflect"
	"strconv"

	"github.com/google/go-dap"
)

const longest = 100000

type client struct {
	in     io.WriteCloser
	out    *bufio.Reader
	number int
	events []dap.EventMessage
}

func fail(form string, values ...interface{}) {
	fmt.Fprintf(os.Stderr, "godap: "+form+"\n", values...)
	os.Exit(1)
}

func (c *client) read() dap.Message {
	message, err := dap.ReadProtocolMessage(c.out)
	if err != nil {
		fail("what the adapter sends is no message: %v", err)
	}
	return message
}

// ask sends a request, and gives its response. Events that come before it are kept.
func (c *client) ask(command string, request dap.RequestMessage) dap.ResponseMessage {
	c.number++
	head := request.GetRequest()
	head.Seq, head.Type, head.Command = c.number, "request", command
	if err := dap.WriteProtocolMessage(c.in, request); err != nil {
		fail("%s can't be sent: %v", command, err)
	}
	for {
		switch found := c.read().(type) {
		case dap.EventMessage:
			c.events = append(c.events, found)
		case dap.ResponseMessage:
			head := found.GetResponse()
			if head.RequestSeq != c.number || head.Command != command || !head.Success {
				fail("%s: the response is %+v", command, found)
			}
			return found
		default:
			fail("%s: there came %+v", command, found)
		}
	}
}

// event gives the next event of a name, and passes by those before it.
func (c *client) event(name string) dap.EventMessage {
	for {
		var found dap.EventMessage
		if len(c.events) > 0 {
			found, c.events = c.events[0], c.events[1:]
		} else if event, isEvent := c.read().(dap.EventMessage); isEvent {
			found = event
		} else {
			fail("a response that nobody asked for")
		}
		if found.GetEvent().Event == name {
			return found
		}
	}
}

func (c *client) stopped() string {
	body := c.event("stopped").(*dap.StoppedEvent).Body
	if body.ThreadId != 1 || !body.AllThreadsStopped {
		fail("stopped: %+v", body)
	}
	return body.Reason
}

// start is all up to where the session stands at its entry.
func (c *client) start(script string, line int) {
	request := &dap.InitializeRequest{Arguments: dap.InitializeRequestArguments{AdapterID: "uvt", LinesStartAt1: true, ColumnsStartAt1: true}}
	can := c.ask("initialize", request).(*dap.InitializeResponse).Body
	if !can.SupportsStepBack || !can.SupportsConfigurationDoneRequest || len(can.ExceptionBreakpointFilters) == 0 {
		fail("initialize: %+v", can)
	}
	configuration, _ := json.Marshal(map[string]string{"program": script})
	c.ask("launch", &dap.LaunchRequest{Arguments: configuration})
	c.event("initialized")
	source := dap.Source{Name: filepath.Base(script), Path: script}
	asked := dap.SetBreakpointsArguments{Source: source, Breakpoints: []dap.SourceBreakpoint{{Line: line}}}
	breakpoints := c.ask("setBreakpoints", &dap.SetBreakpointsRequest{Arguments: asked}).(*dap.SetBreakpointsResponse).Body.Breakpoints
	if len(breakpoints) != 1 || !breakpoints[0].Verified || breakpoints[0].Line != line {
		fail("setBreakpoints: %+v", breakpoints)
	}
	c.ask("configurationDone", &dap.ConfigurationDoneRequest{})
	if reason := c.stopped(); reason != "entry" {
		fail("it begins with %s", reason)
	}
}

func (c *client) stack() []dap.StackFrame {
	response := c.ask("stackTrace", &dap.StackTraceRequest{Arguments: dap.StackTraceArguments{ThreadId: 1}})
	body := response.(*dap.StackTraceResponse).Body
	if len(body.StackFrames) == 0 || len(body.StackFrames) != body.TotalFrames {
		fail("stackTrace: %+v", body)
	}
	return body.StackFrames
}

// back steps back to the start, and gives the stacks from here on, this one too.
func (c *client) back() [][]dap.StackFrame {
	stacks := [][]dap.StackFrame{c.stack()}
	for len(stacks) < longest {
		c.ask("stepBack", &dap.StepBackRequest{Arguments: dap.StepBackArguments{ThreadId: 1}})
		switch reason := c.stopped(); reason {
		case "step":
			stacks = append(stacks, c.stack())
		case "entry":
			return stacks
		default:
			fail("a step back stops with %s", reason)
		}
	}
	fail("stepping back comes to no end")
	return nil
}

// on steps to the end, and gives the stacks, this one too, and how many of these steps stopped at the breakpoint.
func (c *client) on() ([][]dap.StackFrame, int) {
	stacks, breaks := [][]dap.StackFrame{c.stack()}, 0
	for len(stacks) < longest {
		c.ask("stepIn", &dap.StepInRequest{Arguments: dap.StepInArguments{ThreadId: 1}})
		switch reason := c.stopped(); reason {
		case "breakpoint":
			breaks++
			stacks = append(stacks, c.stack())
		case "step":
			stacks = append(stacks, c.stack())
		case "pause":
			return stacks, breaks
		default:
			fail("a step stops with %s", reason)
		}
	}
	fail("stepping comes to no end")
	return nil, 0
}

func same(what string, on, back [][]dap.StackFrame) {
	if len(on) != len(back) {
		fail("%s: %d stacks on, and %d back", what, len(on), len(back))
	}
	for at := range on {
		if !reflect.DeepEqual(on[at], back[len(back)-1-at]) {
			fail("%s, at %d: on %+v, and back %+v", what, at, on[at], back[len(back)-1-at])
		}
	}
}

func (c *client) session(script string, line int, op string) {
	c.start(script, line)
	first := c.stack()
	c.ask("continue", &dap.ContinueRequest{Arguments: dap.ContinueArguments{ThreadId: 1}})
	reason, here := c.stopped(), c.stack()
	if reason != "breakpoint" || here[0].Line != line || here[0].Name != op || here[0].Source.Path != script {
		fail("continue: %s, at %+v", reason, here[0])
	}
	back := c.back()
	if !reflect.DeepEqual(back[len(back)-1], first) {
		fail("the start: %+v, and it was %+v", back[len(back)-1], first)
	}
	on, breaks := c.on()
	if breaks == 0 || len(on) <= len(back) {
		fail("on to the end: %d stacks, %d breaks", len(on), breaks)
	}
	same("up to the breakpoint", on[:len(back)], back)
	same("up to the end", on, c.back())
	c.ask("disconnect", &dap.DisconnectRequest{})
	fmt.Printf("%s: %d stacks to line %d, %d to the end: the same on and back\n", filepath.Base(script), len(back), line, len(on))
}

func main() {
	if len(os.Args) != 5 {
		fail("it takes ADAPTER SCRIPT LINE OP")
	}
	line, err := strconv.Atoi(os.Args[3])
	if err != nil {
		fail("%s is no line", os.Args[3])
	}
	adapter := exec.Command(os.Args[1])
	adapter.Stderr = os.Stderr
	in, _ := adapter.StdinPipe()
	out, _ := adapter.StdoutPipe()
	if err := adapter.Start(); err != nil {
		fail("%v", err)
	}
	c := &client{in: in, out: bufio.NewReader(out)}
	c.session(os.Args[2], line, os.Args[4])
	if rest, _ := io.ReadAll(c.out); len(rest) != 0 {
		fail("behind the end there came %q", rest)
	}
	if err := adapter.Wait(); err != nil {
		fail("the adapter ends with %v", err)
	}
}
