// What the debug adapter takes and gives, by the protocol's own types.
import type { DebugProtocol as P } from "@vscode/debugprotocol";

/** A launch, besides what every adapter takes. */
export interface Launch extends P.LaunchRequestArguments {
    program: string;
    how?: "load" | "put";
    tape?: string;
    switches?: Record<string, "up" | "down">;
    stopOnEntry?: boolean;
    operate?: boolean;
}

type Answer<Response extends P.Response> = Response["body"] | Promise<Response["body"]>;

/** What is done for each request: what it takes, and the body of its response. */
export interface Requests {
    initialize(given: P.InitializeRequestArguments): Answer<P.InitializeResponse>;
    launch(given: Launch): Promise<void>;
    attach(given: P.AttachRequestArguments): void;
    configurationDone(given: P.ConfigurationDoneArguments): void;
    restart(given: { arguments?: Launch }): Promise<void>;
    disconnect(given: P.DisconnectArguments): void;
    terminate(given: P.TerminateArguments): void;
    cancel(given: P.CancelArguments): void;
    threads(given: {}): Answer<P.ThreadsResponse>;
    stackTrace(given: P.StackTraceArguments): Answer<P.StackTraceResponse>;
    scopes(given: P.ScopesArguments): Answer<P.ScopesResponse>;
    variables(given: P.VariablesArguments): Answer<P.VariablesResponse>;
    evaluate(given: P.EvaluateArguments, order: number): Answer<P.EvaluateResponse>;
    completions(given: P.CompletionsArguments): Answer<P.CompletionsResponse>;
    exceptionInfo(given: P.ExceptionInfoArguments): Answer<P.ExceptionInfoResponse>;
    readMemory(given: P.ReadMemoryArguments): Answer<P.ReadMemoryResponse>;
    disassemble(given: P.DisassembleArguments): Answer<P.DisassembleResponse>;
    source(given: P.SourceArguments): Answer<P.SourceResponse>;
    setVariable(given: P.SetVariableArguments): Answer<P.SetVariableResponse>;
    setExpression(given: P.SetExpressionArguments): Answer<P.SetExpressionResponse>;
    writeMemory(given: P.WriteMemoryArguments): Answer<P.WriteMemoryResponse>;
    setBreakpoints(given: P.SetBreakpointsArguments): Answer<P.SetBreakpointsResponse>;
    setFunctionBreakpoints(given: P.SetFunctionBreakpointsArguments): Answer<P.SetFunctionBreakpointsResponse>;
    setInstructionBreakpoints(given: P.SetInstructionBreakpointsArguments): Answer<P.SetInstructionBreakpointsResponse>;
    setDataBreakpoints(given: P.SetDataBreakpointsArguments): Answer<P.SetDataBreakpointsResponse>;
    setExceptionBreakpoints(given: P.SetExceptionBreakpointsArguments): Answer<P.SetExceptionBreakpointsResponse>;
    dataBreakpointInfo(given: P.DataBreakpointInfoArguments): Answer<P.DataBreakpointInfoResponse>;
    breakpointLocations(given: P.BreakpointLocationsArguments): Answer<P.BreakpointLocationsResponse>;
    continue(given: P.ContinueArguments): Answer<P.ContinueResponse>;
    next(given: P.NextArguments): void;
    stepIn(given: P.StepInArguments): void;
    stepOut(given: P.StepOutArguments): void;
    stepBack(given: P.StepBackArguments, order: number): Promise<void>;
    reverseContinue(given: P.ReverseContinueArguments, order: number): Promise<void>;
    pause(given: P.PauseArguments): void;
    gotoTargets(given: P.GotoTargetsArguments): Answer<P.GotoTargetsResponse>;
    goto(given: P.GotoArguments): void;
}

/** What each event tells. */
export interface Events {
    initialized: undefined;
    terminated: undefined;
    output: P.OutputEvent["body"];
    stopped: P.StoppedEvent["body"];
    continued: P.ContinuedEvent["body"];
    breakpoint: P.BreakpointEvent["body"];
    invalidated: P.InvalidatedEvent["body"];
    memory: P.MemoryEvent["body"];
}

/** Why the machine has stopped: with a sentence of the monitor, or what it is, where {} is the place. */
export interface Stop {
    reason: string;
    what?: string;
    sentence?: string;
    points?: { id: number }[];
    text?: string;
}

/** A breakpoint as a client wants it, and where it is, or why it is nowhere. */
export interface Wanted {
    id: number;
    kind?: "break" | "watch";
    address?: string;
    line?: number;
    message?: string;
    condition?: string;
    hitCondition?: string;
    logMessage?: string;
}

/** A record of the monitor. */
export type Fields = Map<string, any>;

/** What an adapter is given of the system that it runs on. */
export interface Options {
    readFile(path: string): Promise<Uint8Array>;
    resolve?(path: string, beside?: string): string | Promise<string>;
    identityOf?(path: string): string | Promise<string>;
    consoleOver?(session: any, openSession: () => any): any;
    fileNames?(begun: string): string[];
    shelf?: any;
    ended?(): void;
}
