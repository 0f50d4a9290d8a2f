%% Reads messages by the decoder that Erlang's compiler makes of the ITU's modules. Each line of
%% standard input is a message in hexadecimal; for each one line is written: its fields, joined by
%% "|" (README.md, "The fields"), or "refused" and why.
-module(itu_reader).
-export([main/0]).

-define(ROS, 'Remote-Operations-Generic-ROS-PDUs').

%% Tags as the decoder numbers them: the class in the bits from the 17th on, the tag's number below.
-define(INTEGER, 2).
-define(REFERENCE, 6).
-define(EXTERNAL, 8).
-define(DIALOGUE_PORTION, (1 bsl 16 + 11)).
-define(SINGLE, (2 bsl 16 + 0)).
-define(BITS, (2 bsl 16 + 2)).
-define(INFORMATION, (2 bsl 16 + 30)).

main() ->
    ok = io:setopts(standard_io, [binary]),
    lines(),
    halt().

lines() ->
    case io:get_line(standard_io, "") of
        eof -> ok;
        Line ->
            io:put_chars([answer(string:trim(Line)), $\n]),
            lines()
    end.

answer(Hex) ->
    try fields(binary:decode_hex(Hex)) of
        Fields -> lists:join("|", Fields)
    catch
        throw:Why -> ["refused ", Why];
        _:_ -> "refused what the decoder gives has no form here"
    end.

fields(Octets) ->
    Fields = message(decoded('AnyMessage', 'Message', Octets)),
    {{_, Message}, _} = asn1rt_nif:decode_ber_tlv(Octets),
    lists:foreach(fun checked/1, externals(Message)),
    Fields.

%% The parts of each EXTERNAL that the decoder reads: of that in the dialogue portion, and of those in the
%% user information of its dialogue PDU. What a foreign one or a parameter holds is only copied.
externals(Message) ->
    Parts = inside(?EXTERNAL, inside(?DIALOGUE_PORTION, Message)),
    [Parts | information_externals(Parts)].

information_externals([{?REFERENCE, <<0, 16#11, 16#86, 5, 1, Kind, 1>>}, {?SINGLE, [{_, Pdu}]}])
  when Kind =:= 1; Kind =:= 2 ->
    [Parts || {?EXTERNAL, Parts} <- inside(?INFORMATION, Pdu)];
information_externals(_) -> [].

inside(Tag, Parts) -> lists:append([Inside || {At, Inside} <- Parts, At =:= Tag]).

%% The decoder takes four things in an EXTERNAL that X.690 forbids, and the value that it makes of them has
%% other octets.
checked(Parts) ->
    [throw("an integer of no octet") || {?INTEGER, <<>>} <- Parts],
    [throw("a bit string with more than seven unused bits") || {?BITS, <<Unused, _/binary>>} <- Parts, Unused > 7],
    [throw("an explicit tag that is primitive") || {?SINGLE, Octets} <- Parts, is_binary(Octets)],
    [throw("no object identifier") || {?REFERENCE, Octets} <- Parts, not is_identifier(Octets)].

is_identifier(Octets) ->
    re:run(Octets, "(^|[\\x00-\\x7f])\\x80|[\\x80-\\xff]$", [dollar_endonly]) =:= nomatch.

%% A value of a type and nothing after it.
decoded(Module, Type, Octets) ->
    case Module:decode(Type, Octets) of
        {ok, Value, <<>>} -> Value;
        {ok, _, _} -> throw("octets after the value");
        {error, {asn1, Why}} -> throw(reason(Why))
    end.

%% The decoder's reason on one line, without the places in its code.
reason({Why, Stack}) when is_list(Stack) -> reason(Why);
reason(Why) -> io_lib:format("~W", [Why, 9]).

%% ---- the transaction portion

message({unidirectional, {_, Dialogue, Components}}) ->
    ["unidirectional" | portions(Dialogue, Components)];
message({'begin', {_, Origin, Dialogue, Components}}) ->
    ["begin", origin(Origin) | portions(Dialogue, Components)];
message({'end', {_, Destination, Dialogue, Components}}) ->
    ["end", destination(Destination) | portions(Dialogue, Components)];
message({continue, {_, Origin, Destination, Dialogue, Components}}) ->
    ["continue", origin(Origin), destination(Destination) | portions(Dialogue, Components)];
message({abort, {_, Destination, Reason}}) ->
    ["abort", destination(Destination) | abort_reason(Reason)].

origin(Octets) -> ["otid ", hex(Octets)].
destination(Octets) -> ["dtid ", hex(Octets)].

abort_reason(asn1_NOVALUE) -> [];
abort_reason({'p-abortCause', Cause}) -> [["cause ", number('TCAPMessages', 'P-AbortCause', Cause)]];
abort_reason({'u-abortCause', External}) -> [dialogue(External)].

portions(asn1_NOVALUE, Components) -> components(Components);
portions(Dialogue, Components) -> [dialogue(Dialogue) | components(Components)].

%% The compiler doesn't check SIZE (1..MAX) of the ComponentPortion.
components(asn1_NOVALUE) -> [];
components([]) -> throw("ComponentPortion: SIZE (1..MAX)");
components(Components) -> [component(C) || C <- Components].

%% ---- the component portion

component({basicROS, {invoke, {_, Id, Linked, Code, Parameter}}}) ->
    ["invoke ", invoke_id(Id), " linked ", linked(Linked), " op ", code(Code), parameter(Parameter)];
component({basicROS, {returnResult, {_, Id, Body}}}) -> ["result last ", id(Id), body(Body)];
component({returnResultNotLast, {_, Id, Body}}) -> ["result more ", id(Id), body(Body)];
component({basicROS, {returnError, {_, Id, Code, Parameter}}}) ->
    ["error ", id(Id), " code ", code(Code), parameter(Parameter)];
component({basicROS, {reject, {_, Id, {Kind, Code}}}}) ->
    {Word, Type} = problem(Kind),
    ["reject ", id(Id), " ", Word, " ", number(?ROS, Type, Code)].

problem(general) -> {"general", 'GeneralProblem'};
problem(invoke) -> {"invoke", 'InvokeProblem'};
problem(returnResult) -> {"result", 'ReturnResultProblem'};
problem(returnError) -> {"error", 'ReturnErrorProblem'}.

%% The compiler doesn't check TCInvokeIdSet, that of an Invoke: present (-128..127), and so not absent.
invoke_id({present, Id}) when -128 =< Id, Id =< 127 -> integer_to_list(Id);
invoke_id(_) -> throw("TCInvokeIdSet: present (-128..127)").

id({present, Id}) -> integer_to_list(Id);
id({absent, _}) -> "-".

linked(asn1_NOVALUE) -> "-";
linked({present, Id}) -> integer_to_list(Id);
linked({absent, _}) -> "null".

body(asn1_NOVALUE) -> " op - param -";
body({_, Code, Parameter}) -> [" op ", code(Code), parameter(Parameter)].

code({local, Number}) -> ["local ", integer_to_list(Number)];
code({global, Identifier}) -> ["global ", hex(identifier_octets(Identifier))].

parameter(asn1_NOVALUE) -> " param -";
parameter({asn1_OPENTYPE, Octets}) -> [" param ", hex(Octets)].

%% ---- the dialogue portion

dialogue({'EXTERNAL', Syntax, asn1_NOVALUE, asn1_NOVALUE, {'single-ASN1-type', Octets}} = External) ->
    {ok, Structured} = syntax('DialoguePDUs', 'dialogue-as-id'),
    {ok, Unstructured} = syntax('UnidialoguePDUs', 'uniDialogue-as-id'),
    case Syntax of
        Structured -> pdu(decoded('DialoguePDUs', 'DialoguePDU', Octets));
        Unstructured -> pdu(decoded('UnidialoguePDUs', 'UniDialoguePDU', Octets));
        _ -> ["foreign ", external(External)]
    end;
dialogue(External) -> ["foreign ", external(External)].

syntax(Module, Name) -> {ok, Module:Name()}.

pdu({dialogueRequest, {_, Version, Context, Info}}) -> request("aarq", Version, Context, Info);
pdu({unidialoguePDU, {_, Version, Context, Info}}) -> request("audt", Version, Context, Info);
pdu({dialogueResponse, {_, Version, Context, Result, Diagnostic, Info}}) ->
    {Source, _} = Diagnostic,
    [opening("aare", Version, Context), " result ", number('DialoguePDUs', 'Associate-result', Result),
     " ", source(Source), " ", diagnostic(Diagnostic), information(Info)];
pdu({dialogueAbort, {_, Source, Info}}) ->
    ["abrt ", number('DialoguePDUs', 'ABRT-source', Source), information(Info)].

request(Name, Version, Context, Info) -> [opening(Name, Version, Context), information(Info)].

opening(Name, Version, Context) ->
    [Name, " version ", version(Version), " context ", hex(identifier_octets(Context))].

version(Bits) ->
    case lists:member(version1, Bits) of
        true -> "yes";
        false -> "no"
    end.

source('dialogue-service-user') -> "user";
source('dialogue-service-provider') -> "provider".

diagnostic({_, Number}) when is_integer(Number) -> integer_to_list(Number);
diagnostic(Diagnostic) ->
    {ok, Octets} = 'DialoguePDUs':encode('Associate-source-diagnostic', Diagnostic),
    integer_to_list(binary:last(Octets)).

information(asn1_NOVALUE) -> " info -";
information([]) -> " info -";
information(Externals) -> [" info " | [external(E) || E <- Externals]].

external(External) ->
    {ok, Octets} = 'DialoguePDUs':encode('EXTERNAL', External),
    hex(Octets).

%% ---- values

%% The number that the grammar gives to a name.
number(_, _, Number) when is_integer(Number) -> integer_to_list(Number);
number(Module, Type, Name) ->
    {ok, Octets} = Module:encode(Type, Name),
    integer_to_list(binary:last(Octets)).

identifier_octets(Identifier) ->
    [First, Second | Others] = tuple_to_list(Identifier),
    list_to_binary([subidentifier(N) || N <- [First * 40 + Second | Others]]).

subidentifier(N) when N < 128 -> [N];
subidentifier(N) -> [128 bor B || B <- leading(N bsr 7, [])] ++ [N band 127].

leading(0, Octets) -> Octets;
leading(N, Octets) -> leading(N bsr 7, [N band 127 | Octets]).

hex(Octets) -> string:lowercase(binary:encode_hex(iolist_to_binary(Octets))).
