{ zvt.pas: the till of zvt.h for Free Pascal (3.2) and Delphi, over libzvt. Copy this file into your project.

      Till := TZvtTill.Create(ZvtSettings('day.trace'));
      try
        Till.Connect('192.0.2.7', 20007, 60000);
        Till.Register;
        WriteLn(Till.Pay(1000).ToString); // paid, trace 000001, receipt 0001
      finally
        Till.Free;
      end;

  The library keeps the till and its book; this unit transports the bytes. Amounts are in the smallest unit of the currency. Only
  one thread at a time may use a till. Like the library, this needs Linux on x86-64. Delphi has no unit ssockets: pass a
  connection of your own to Connect there. }
unit zvt;

{$IFDEF FPC}{$MODE DELPHI}{$ENDIF}

interface

uses
  SysUtils;

const
  { Version of the struct layouts and calls that this unit expects. }
  ZvtAbi = 4;
  ZvtMaxAmount = 999999999999;
  { Stands for a number that an outcome or an entry does not have. }
  ZvtNone = -1;

type
  { How an order ended. }
  TZvtEnding = (zeNone, zeRegistered, zePaid, zeDeclined, zeOrderRefused, zeAborted, zeUnclear, zeReversed, zeDayClosed);
  { Why a payment or a reversal is unclear. Check the terminal's journal before you book or refund the amount. }
  TZvtCause = (zcNone, zcNoStatus, zcConflict, zcAmountDiffers, zcNoTrace, zcTraceUsed, zcAbortAfterApproval, zcLine,
    zcMalformed, zcUnfinished, zcWrongCurrency);
  { What is in doubt about the reversal of a booked payment. zdUnclearReversal: the last reversal may have succeeded or not. Reverse
    the payment again once you are connected. zdTakenBack: the terminal answered B4, because it had reversed the payment before. }
  TZvtDoubt = (zdNo, zdUnclearReversal, zdTakenBack);

  TZvtOutcome = record
    Ending: TZvtEnding;
    { The terminal's code, if it declined, refused or aborted the order. }
    Code: Integer;
    { The meaning of the code, or empty if it has none. }
    Meaning: string;
    { The cause, if the payment or the reversal is unclear. }
    Cause: TZvtCause;
    { The numbers of a paid payment; the receipt number only if the terminal gave one. }
    Trace, Receipt: Integer;
    { Whether the connection ended the order, rather than a message of the terminal. }
    function IsByLine: Boolean;
    function ToString: string;
  end;

  { A payment, either booked or unclear for a cause. }
  TZvtEntry = record
    Amount: Int64;
    { The numbers of the payment, each only if the terminal gave it; an unclear payment has those that the terminal named in it. }
    Trace, Receipt: Integer;
    { Whether a reversal of it was completed. }
    Reversed: Boolean;
    { The cause of an unclear payment or reversal. }
    Cause: TZvtCause;
    Doubt: TZvtDoubt;
    { When the payment was ordered, such as 2026-11-28T09:14:03Z, and the caller's reference, each empty unless the till's book has it. }
    At, Reference: AnsiString;
    function ToString: string;
  end;

  { What became of an unclear order. }
  TZvtSettlementKind = (zsNone, zsPaid, zsNotPaid, zsReversed, zsNotReversed);

  { What the answer to an ask says about an unclear order. }
  TZvtSettlement = record
    Kind: TZvtSettlementKind;
    { The index of the unclear payment, or for a reversal of the booked payment, from 0. }
    Place: Integer;
    { The numbers of a payment that was paid; the receipt number only if the terminal gave one. }
    Trace, Receipt: Integer;
    function ToString: string;
  end;

  { The kind of a pending order. }
  TZvtPendingKind = (zpNone, zpPayment, zpReversal);

  { An unclear order that the next answer can settle. }
  TZvtPending = record
    Kind: TZvtPendingKind;
    { The index of the unclear payment, or for a reversal of the booked payment, from 0. }
    Place: Integer;
  end;

  TZvtEntries = array of TZvtEntry;
  TZvtSettlements = array of TZvtSettlement;
  TZvtPlaces = array of Integer;

  { An argument is out of range. }
  EZvtArgument = class(EArgumentException);
  { The till is closed, or a callback gives its till an order. }
  EZvtUse = class(EInvalidOpException);

  { The library refused a call. The till has not changed. The status is one of zvt.h. }
  EZvtRefused = class(Exception)
  public
    Status: Cardinal;
    constructor Create(AStatus: Cardinal);
  end;

  { The connection ended, failed, timed out or sent invalid bytes, and was closed. The outcome is the result of the order: a
    payment or a reversal is unclear. Its ending is zeNone if an ask was running. }
  EZvtLine = class(Exception)
  public
    Outcome: TZvtOutcome;
    constructor Create(const AOutcome: TZvtOutcome; const Why: string);
  end;

  { The book can't be opened or written. Its till sends nothing more: create a new till, which opens the book again. }
  EZvtBook = class(Exception);

  { The connection ended, failed or timed out. }
  EZvtBroken = class(Exception);

  { A connection to a terminal. }
  TZvtConnection = class
  public
    { Reads bytes that arrive within this time. Returns 0 if nothing arrived. Raises EZvtBroken at the end of the connection. }
    function Read(var Buffer: TBytes; Milliseconds: Integer): Integer; virtual; abstract;
    procedure Write(const Bytes: TBytes); virtual; abstract;
  end;

  { The code page of the lines to print. }
  TZvtCodepage = (cpAsSent, cp437, cp850, cpIso8859_1, cpUtf8);
  { The receipt that a line belongs to: cyNone for a print line, and if the terminal named none. }
  TZvtCopy = (cyNone, cyMerchant, cyCustomer, cyAdministration, cyOther);

  TZvtPrintLine = procedure(const Line: TBytes) of object;
  TZvtPrintText = procedure(const Text: UTF8String; Copy: TZvtCopy) of object;
  TZvtHeard = procedure(const Text: string) of object;
  TZvtQuestion = function: Boolean of object;

  { The settings of a till. }
  TZvtSettings = record
    { A number of up to six digits. }
    Password: Integer;
    Config: Integer;
    { The code of ISO 4217: 978 is the euro. }
    Currency: Integer;
    { The file in which the till keeps its book, which survives every end of the process. Empty for none. }
    Book: string;
    { Receives the bytes of each line to print, in a print line or a text block, in the terminal's character set. Its exceptions
      wait for the order's outcome. }
    PrintLine: TZvtPrintLine;
    { Receives the text of each line to print, and the receipt that it belongs to. Its exceptions wait, too. }
    PrintText: TZvtPrintText;
    { The code page of these texts. }
    Codepage: TZvtCodepage;
    { Receives the text of each message of the terminal, as the program zvt shows it. Its exceptions wait, too. }
    Heard: TZvtHeard;
  end;

  TZvtAnswer = record
    Size, Place: UInt64;
    Reason, Status: Cardinal;
  end;

  TZvtOutcomeNumbers = record
    Kind, Code, Trace, Receipt, HasReceipt: Cardinal;
  end;

  TZvtStep = record
    Taken, Send, Place, Line: UInt64;
    Reason, Message, Printed: Cardinal;
    Outcome: TZvtOutcomeNumbers;
  end;

  TZvtLineNumbers = record
    Size: UInt64;
    Copy: Cardinal;
  end;

  TZvtState = record
    Total, Booked, Unclear, UnclearReversals, Settled, Held: UInt64;
    Registered, Running: Cardinal;
    Last: TZvtOutcomeNumbers;
  end;

  TZvtEntryNumbers = record
    Amount: UInt64;
    Trace, Receipt, HasReceipt, Reversed, Cause, Doubt: Cardinal;
  end;

  TZvtSettlementNumbers = record
    Place: UInt64;
    Kind, Trace, Receipt, HasReceipt: Cardinal;
  end;

  TZvtPendingNumbers = record
    Place: UInt64;
    Kind, LastKnown: Cardinal;
  end;

  TZvtHandle = record
    At: Pointer;
    Full: Cardinal;
  end;

  { The file of a book: text records, each of which is complete or absent, whenever the process ends. At rest the file is its
    records and one line feed, the closed gate, which reads as an empty line. It stands for its complete lines up to the first
    empty one. A record is appended in two steps, each durable before the next: the record without its first byte after the gate,
    with the next gate; and then the first byte over the gate. }
  TZvtJournal = class
  private
    FPath: string;
    FFile: Integer;
    FGate: Int64;
    FFailed: Boolean;
    FText, FCut: TBytes;
    procedure RaiseLast(const What: string);
    function Done(Answer: Int64; const What: string): Int64;
    function OpenOrMake: Integer;
    function Durable: TBytes;
    function Accepted(const Held: TBytes): Integer;
    procedure KeepCut;
    procedure SyncFolder;
    procedure Write(const Bytes: TBytes; Place: Int64; const What: string);
  public
    { Opens the file, or creates it. Writes nothing yet. }
    constructor Create(const Path: string);
    destructor Destroy; override;
    { Truncates the file to its records and closes the gate. First appends the removed bytes to the file of this name and .cut. }
    procedure Settle;
    { Makes a record durable. It is the given number of bytes: complete lines, none of them empty. }
    procedure Append(const Bytes: TBytes; Size: Integer);
    { Refuses records from now on. }
    procedure GiveUp;
    { The text of the records, with those of this process. }
    function Records: TBytes;
    { The records that the file had when it was opened. }
    property Text: TBytes read FText;
  end;

  { A till. It keeps its book in a file if the settings name one. }
  TZvtTill = class
  private
    FHandle: TZvtHandle;
    FPrintLine: TZvtPrintLine;
    FPrintText: TZvtPrintText;
    FCodepage: TZvtCodepage;
    FHeard: TZvtHeard;
    FOut, FText, FRecord, FUnheard: TBytes;
    FJournal: TZvtJournal;
    FLine: TZvtConnection;
    FTimeout: Integer;
    FOutcome: TZvtOutcome;
    FRaised: TObject;
    FRunning: Boolean;
    procedure BeginBook(const Settings: TZvtSettings);
    procedure Recover(const Path: string);
    procedure RefuseWithin;
    procedure Check(Status: Cardinal);
    procedure DropLine;
    function Run(Order: Cardinal; Number: Int64; WantsCancel: TZvtQuestion; const Reference: AnsiString = ''): TZvtOutcome;
    function GiveOrder(Order: Cardinal; Number: Int64): TBytes;
    procedure KeepAndSend(Order: Cardinal; Number: Int64; const Bytes: TBytes; const Reference: AnsiString = '');
    procedure MakeDurable(const Answer: TZvtAnswer);
    procedure Ended(const Step: TZvtStep);
    procedure HearOut(WantsCancel: TZvtQuestion);
    function Cancels: Boolean;
    function Wants(Question: TZvtQuestion): Boolean;
    procedure Hear(const Piece: TBytes);
    procedure Feed(Piece: TBytes; var Broken: string);
    function FindFirst(var Answer: TZvtAnswer): Integer;
    procedure Print(const Line: TBytes);
    procedure PrintAsText(Place: NativeUInt);
    function LineAt(Place: NativeUInt; Codepage: TZvtCodepage; var Line: TBytes; var Numbers: TZvtLineNumbers): Boolean;
    procedure PrintLines;
    function NameOfCard: string;
    function NumberOfCard: string;
    procedure Tell(const Message: TBytes);
    function State: TZvtState;
    function Entries(Count: UInt64; Booked: Boolean): TZvtEntries;
    procedure AddNotes(var Entries: TZvtEntries; const Kind: AnsiString);
    function NoteLines: AnsiString;
    function PendingNumbers: TZvtPendingNumbers;
    function PendingOrder: TZvtPending;
    function IsLastKnown: Boolean;
    function LastOutcome: TZvtOutcome;
    function IsRegistered: Boolean;
    function SumOfBook: Int64;
  public
    { Creates a till. If the file of its book exists, the till continues from it. }
    constructor Create(const Settings: TZvtSettings);
    { Closes the connection and frees the till. The book on the disk is already complete. }
    destructor Destroy; override;
    {$IFDEF FPC}
    { Connects by TCP, and closes an earlier connection. During an order the terminal may be silent for the timeout. }
    procedure Connect(const Host: string; Port: Word; Milliseconds: Integer); overload;
    {$ENDIF}
    { Takes over an open connection, which the till frees. }
    procedure Connect(Line: TZvtConnection; Milliseconds: Integer); overload;
    { Closes the connection. }
    procedure Disconnect;
    function Register: TZvtOutcome;
    { Pays an amount. Five times a second the till asks whether to cancel the payment; the terminal decides. The book keeps the time
      of the payment and the reference: up to 40 printable ASCII characters without a space. }
    function Pay(Amount: Int64; WantsCancel: TZvtQuestion = nil; const Reference: AnsiString = ''): TZvtOutcome;
    { Reverses the payment at this index of the book, from 0. The book keeps the time of the reversal and the reference. }
    function Reverse(Place: Integer; const Reference: AnsiString = ''): TZvtOutcome;
    function CloseDay: TZvtOutcome;
    { Asks the terminal to repeat its last receipt, and returns the settlement of the pending order; its kind is zsNone if the answer
      settles nothing. Ask after a registration if an order is pending, or if KnowsLast is False. The terminal has to serve this
      till alone, and must not continue an order whose connection was lost. The book keeps the time of the ask and the reference.
      Lines that the terminal wants printed again are handed out as usual. }
    function Ask(const Reference: AnsiString = ''): TZvtSettlement;
    { The booked payments. }
    function Book: TZvtEntries;
    { The unclear payments: the terminal may have booked them or not. }
    function Unclear: TZvtEntries;
    { What the answers to asks settled, in their order. Neither the book nor the list of unclear payments changes. }
    function Settled: TZvtSettlements;
    { The indices of the booked payments whose last reversal is unclear. Reverse them again. }
    function UnclearReversals: TZvtPlaces;
    { Saves the till as bytes, as it would be after losing its connection. They contain the password in clear. }
    function Save: TBytes;
    { Restores the till from saved bytes. It is not connected afterwards. }
    procedure Load(const Saved: TBytes);
    { The sum of the booked payments without a completed reversal. }
    property Total: Int64 read SumOfBook;
    property Registered: Boolean read IsRegistered;
    { The unclear order that the next answer can settle; its kind is zpNone if there is none, as after Load. }
    property Pending: TZvtPending read PendingOrder;
    { Whether the till knows the terminal's last status. Only then can an order that becomes unclear be settled. }
    property KnowsLast: Boolean read IsLastKnown;
    { The last outcome; its ending is zeNone if there is none. }
    property Last: TZvtOutcome read LastOutcome;
    { The name of the card of the last order, or an empty text if the terminal named none. }
    property CardName: string read NameOfCard;
    { The number of that card. All digits but the first six and the last four are asterisks. }
    property CardNumber: string read NumberOfCard;
  end;

{ Settings of a till with this book, empty for none: no password, the usual config byte, and the euro. }
function ZvtSettings(const Book: string = ''): TZvtSettings;

{ Returns the words of an intermediate status, which says what the terminal waits for or does, or an empty string. }
function ZvtStatusName(Status: Byte): string;
{ The version of the library, such as 0.2.0. }
function ZvtVersion: string;

implementation

uses
  {$IFDEF FPC}Sockets, ssockets, {$ENDIF}DateUtils, Math;

const
  Library_ = 'zvt';
  C = 'c';
  RoomSize = 8 * 32;
  LineRoom = 65534;
  RecordRoom = 131200;
  OpeningRoom = 1 shl 8;
  MostAfter = (1 shl 18) + 1;
  Format_ = '# zvt journal 1';
  OrderRegister = 1;
  OrderPay = 2;
  OrderReverse = 3;
  OrderCloseDay = 4;
  OrderCancel = 5;
  { An ask, which is no order. It runs under this number. }
  OrderAsk = 6;
  StatusMore = 1;
  StatusRefused = 2;
  StatusArgument = 5;
  StatusClosed = 6;
  StatusNothingToCancel = 13;
  { Numbers of Linux. }
  O_WRONLY = 1; O_RDWR = 2; O_CREAT = $40; O_EXCL = $80; O_APPEND = $400; O_CLOEXEC = $80000;
  LOCK_EX = 2; LOCK_NB = 4; POSIX_FADV_DONTNEED = 4; EAGAIN = 11; EEXIST = 17; POLLIN = 1; MSG_NOSIGNAL = $4000;

type
  TPoll = record
    Socket: Integer;
    Events, Found: SmallInt;
  end;

function zvt_abi: Cardinal; cdecl; external Library_;
function zvt_version(Room: PByte; Length: NativeUInt): NativeUInt; cdecl; external Library_;
function zvt_result_name(Code: Cardinal; Room: PByte; Length: NativeUInt): NativeUInt; cdecl; external Library_;
function zvt_status_name(Status: Cardinal; Room: PByte; Length: NativeUInt): NativeUInt; cdecl; external Library_;
procedure zvt_scan(Bytes: PByte; Length: NativeUInt; var Answer: TZvtAnswer); cdecl; external Library_;
function zvt_text(Bytes: PByte; Length: NativeUInt; Room: PByte; RoomLength: NativeUInt; var Answer: TZvtAnswer): NativeUInt;
  cdecl; external Library_;
function zvt_till_new(var Till: TZvtHandle; Password: Cardinal; Config: Byte; Currency: Word): Cardinal; cdecl; external Library_;
procedure zvt_till_free(var Till: TZvtHandle); cdecl; external Library_;
function zvt_till_connected(var Till: TZvtHandle): Cardinal; cdecl; external Library_;
function zvt_till_lost(var Till: TZvtHandle; var Step: TZvtStep): Cardinal; cdecl; external Library_;
function zvt_till_order(var Till: TZvtHandle; Order: Cardinal; Number: UInt64; Room: PByte; Length: NativeUInt; var Step: TZvtStep): Cardinal;
  cdecl; external Library_;
function zvt_till_ask(var Till: TZvtHandle; Room: PByte; Length: NativeUInt; var Step: TZvtStep): Cardinal; cdecl; external Library_;
function zvt_till_settled(var Till: TZvtHandle; Place: NativeUInt; var Settlement: TZvtSettlementNumbers): Cardinal; cdecl; external Library_;
function zvt_till_pending(var Till: TZvtHandle; var Pending: TZvtPendingNumbers): Cardinal; cdecl; external Library_;
function zvt_till_feed_all(var Till: TZvtHandle; Piece: PByte; Length: NativeUInt; Room: PByte; RoomLength: NativeUInt; Line: PByte;
  LineLength: NativeUInt; var Step: TZvtStep): Cardinal; cdecl; external Library_;
function zvt_till_line(var Till: TZvtHandle; Place: NativeUInt; Codepage: Cardinal; Room: PByte; Length: NativeUInt;
  var Line: TZvtLineNumbers): Cardinal; cdecl; external Library_;
function zvt_till_card_name(var Till: TZvtHandle; Room: PByte; Length: NativeUInt): NativeUInt; cdecl; external Library_;
function zvt_till_card_number(var Till: TZvtHandle; Room: PByte; Length: NativeUInt): NativeUInt; cdecl; external Library_;
function zvt_till_state(var Till: TZvtHandle; var State: TZvtState): Cardinal; cdecl; external Library_;
function zvt_till_entry(var Till: TZvtHandle; Place: NativeUInt; var Entry: TZvtEntryNumbers): Cardinal; cdecl; external Library_;
function zvt_till_unclear(var Till: TZvtHandle; Place: NativeUInt; var Entry: TZvtEntryNumbers): Cardinal; cdecl; external Library_;
procedure zvt_till_save(var Till: TZvtHandle; Room: PByte; Length: NativeUInt; var Answer: TZvtAnswer); cdecl; external Library_;
function zvt_till_load(var Till: TZvtHandle; Bytes: PByte; Length: NativeUInt): Cardinal; cdecl; external Library_;
procedure zvt_till_recover(var Till: TZvtHandle; Text: PByte; Length: NativeUInt; var Answer: TZvtAnswer); cdecl; external Library_;
procedure zvt_record_opening(Currency: Word; Room: PByte; Length: NativeUInt; var Answer: TZvtAnswer); cdecl; external Library_;
procedure zvt_record_order(Order: Cardinal; Number: UInt64; Sent: PByte; SentLength: NativeUInt; At: PByte; AtLength: NativeUInt;
  Reference: PByte; ReferenceLength: NativeUInt; Room: PByte; Length: NativeUInt; var Answer: TZvtAnswer); cdecl; external Library_;
procedure zvt_record_ask(At: PByte; AtLength: NativeUInt; Reference: PByte; ReferenceLength: NativeUInt; Room: PByte; Length: NativeUInt;
  var Answer: TZvtAnswer); cdecl; external Library_;
function zvt_record_heard(Bytes: PByte; Length: NativeUInt; Room: PByte; RoomLength: NativeUInt; var Answer: TZvtAnswer): NativeUInt;
  cdecl; external Library_;
procedure zvt_record_lost(Room: PByte; Length: NativeUInt; var Answer: TZvtAnswer); cdecl; external Library_;
procedure zvt_record_notes(var Till: TZvtHandle; Text: PByte; Length: NativeUInt; Room: PByte; RoomLength: NativeUInt;
  var Answer: TZvtAnswer); cdecl; external Library_;

function posix_open(Path: PAnsiChar; Flags: Integer; Mode: Cardinal): Integer; cdecl; external C name 'open';
function posix_close(AFile: Integer): Integer; cdecl; external C name 'close';
function flock(AFile, Operation: Integer): Integer; cdecl; external C;
function fsync(AFile: Integer): Integer; cdecl; external C;
function fdatasync(AFile: Integer): Integer; cdecl; external C;
function ftruncate(AFile: Integer; Size: Int64): Integer; cdecl; external C;
function posix_fadvise(AFile: Integer; Start, Size: Int64; Advice: Integer): Integer; cdecl; external C;
function pread(AFile: Integer; Room: PByte; Size: NativeUInt; Place: Int64): NativeInt; cdecl; external C;
function pwrite(AFile: Integer; Bytes: PByte; Size: NativeUInt; Place: Int64): NativeInt; cdecl; external C;
function posix_write(AFile: Integer; Bytes: PByte; Size: NativeUInt): NativeInt; cdecl; external C name 'write';
function posix_recv(Socket: Integer; Room: PByte; Size: NativeUInt; Flags: Integer): NativeInt; cdecl; external C name 'recv';
function posix_send(Socket: Integer; Bytes: PByte; Size: NativeUInt; Flags: Integer): NativeInt; cdecl; external C name 'send';
function poll(var Polled: TPoll; Count: NativeUInt; Milliseconds: Integer): Integer; cdecl; external C;
function errno_location: PInteger; cdecl; external C name '__errno_location';
function seconds_since_1970(Room: PInt64): Int64; cdecl; external C name 'time';
function strerror(Number: Integer): PAnsiChar; cdecl; external C;

const
  Endings: array[TZvtEnding] of string = ('none', 'registered', 'paid', 'declined', 'order refused', 'aborted', 'unclear',
    'reversed', 'day closed');
  SettlementKinds: array[TZvtSettlementKind] of string = ('none', 'paid', 'not paid', 'reversed', 'not reversed');
  Causes: array[TZvtCause] of string = ('', 'no status', 'conflict', 'amount differs', 'no trace', 'trace used',
    'abort after approval', 'line', 'malformed', 'unfinished', 'wrong currency');

function WordsOf(Status: Cardinal): string;
begin
  case Status of
    2: Result := 'the bytes are no till''s';
    3: Result := 'no memory';
    7: Result := 'this line brought bytes before that begin no message';
    10: Result := 'the line is down';
    11: Result := 'the till is not registered';
    12: Result := 'an order or an ask runs';
    13: Result := 'no payment runs that could be cancelled';
    14: Result := 'the book is full';
    15: Result := 'no such payment is booked';
    16: Result := 'the payment is taken back';
    17: Result := 'the payment has no receipt number';
  else
    Result := 'status ' + IntToStr(Status);
  end;
end;

function LastError: string;
begin
  Result := string(AnsiString(strerror(errno_location()^)));
end;

procedure Whole(const Name: string; Number, Least, Most: Int64);
begin
  if (Number < Least) or (Number > Most) then
    raise EZvtArgument.CreateFmt('%s is a number from %d to %d, and not %d', [Name, Least, Most, Number]);
end;

procedure CheckReference(const Reference: AnsiString);
var
  Letter: AnsiChar;
begin
  if Length(Reference) > 40 then raise EZvtArgument.Create('a reference has at most 40 characters');
  for Letter in Reference do
    if (Letter <= ' ') or (Letter > '~') then
      raise EZvtArgument.CreateFmt('a reference has printable ASCII characters and no space, and is not %s', [Reference]);
end;

{ A pointer to the first byte, or nil. }
function First(const Bytes: TBytes): PByte;
begin
  if Length(Bytes) = 0 then Result := nil else Result := @Bytes[0];
end;

function Numbers(Trace, Receipt: Integer): string;
begin
  Result := '';
  if Trace <> ZvtNone then Result := Result + Format(', trace %.6d', [Trace]);
  if Receipt <> ZvtNone then Result := Result + Format(', receipt %.4x', [Receipt]);
end;

function MeaningOf(Code: Cardinal): string;
var
  Room: array[0..63] of AnsiChar;
begin
  SetString(Result, PAnsiChar(@Room[0]), Min(zvt_result_name(Code, PByte(@Room[0]), SizeOf(Room)), SizeOf(Room)));
end;

function ZvtStatusName(Status: Byte): string;
var
  Room: array[0..63] of AnsiChar;
begin
  SetString(Result, PAnsiChar(@Room[0]), Min(zvt_status_name(Status, PByte(@Room[0]), SizeOf(Room)), SizeOf(Room)));
end;

{ Returns the text of a message, as the program zvt shows it. }
function TextOf(const Message: TBytes): string;
var
  Answer: TZvtAnswer;
  Room: TBytes;
  Size: NativeUInt;
begin
  SetLength(Room, 1024);
  Size := zvt_text(First(Message), Length(Message), First(Room), Length(Room), Answer);
  if Size > NativeUInt(Length(Room)) then
  begin
    SetLength(Room, Size);
    Size := zvt_text(First(Message), Length(Message), First(Room), Length(Room), Answer);
  end;
  SetString(Result, PAnsiChar(First(Room)), Size);
end;

function OutcomeOf(const From: TZvtOutcomeNumbers): TZvtOutcome;
begin
  Result.Ending := TZvtEnding(From.Kind);
  Result.Code := ZvtNone;
  Result.Meaning := '';
  Result.Cause := zcNone;
  Result.Trace := ZvtNone;
  Result.Receipt := ZvtNone;
  case Result.Ending of
    zeDeclined, zeOrderRefused, zeAborted:
      begin
        Result.Code := From.Code;
        Result.Meaning := MeaningOf(From.Code);
      end;
    zeUnclear: Result.Cause := TZvtCause(From.Code);
    zePaid:
      begin
        Result.Trace := From.Trace;
        if From.HasReceipt = 1 then Result.Receipt := From.Receipt;
      end;
  end;
end;

function NoOutcome: TZvtOutcome;
var
  Nothing: TZvtOutcomeNumbers;
begin
  FillChar(Nothing, SizeOf(Nothing), 0);
  Result := OutcomeOf(Nothing);
end;

function TZvtOutcome.IsByLine: Boolean;
begin
  Result := Cause in [zcLine, zcMalformed];
end;

function TZvtOutcome.ToString: string;
begin
  Result := Endings[Ending];
  if Code <> ZvtNone then Result := Result + Format(', code %.2x', [Code]);
  if Meaning <> '' then Result := Result + ' (' + Meaning + ')';
  if Cause <> zcNone then Result := Result + ': ' + Causes[Cause];
  Result := Result + Numbers(Trace, Receipt);
end;

{ No settlement if there are no numbers. }
function SettlementOf(const From: TZvtSettlementNumbers): TZvtSettlement;
begin
  Result.Kind := TZvtSettlementKind(From.Kind);
  Result.Place := From.Place;
  Result.Trace := ZvtNone;
  Result.Receipt := ZvtNone;
  if Result.Kind = zsPaid then Result.Trace := From.Trace;
  if From.HasReceipt = 1 then Result.Receipt := From.Receipt;
end;

function TZvtSettlement.ToString: string;
begin
  Result := SettlementKinds[Kind] + Numbers(Trace, Receipt);
end;

function EntryOf(const From: TZvtEntryNumbers; Booked: Boolean): TZvtEntry;
begin
  Result.Amount := From.Amount;
  Result.Trace := ZvtNone;
  Result.Receipt := ZvtNone;
  if Booked or (From.Trace <> 0) then Result.Trace := From.Trace;
  if From.HasReceipt = 1 then Result.Receipt := From.Receipt;
  Result.Reversed := From.Reversed = 1;
  Result.Cause := TZvtCause(From.Cause);
  Result.Doubt := TZvtDoubt(From.Doubt);
end;

function TZvtEntry.ToString: string;
begin
  Result := IntToStr(Amount) + Numbers(Trace, Receipt);
  if Reversed then Result := Result + ', taken back';
  if Doubt = zdTakenBack then Result := Result + ', taken back before, said the terminal';
  if Doubt = zdUnclearReversal then Result := Result + ', unclear reversal';
  if Cause <> zcNone then Result := Result + ': ' + Causes[Cause];
end;

constructor EZvtRefused.Create(AStatus: Cardinal);
begin
  inherited Create(WordsOf(AStatus));
  Status := AStatus;
end;

constructor EZvtLine.Create(const AOutcome: TZvtOutcome; const Why: string);
var
  Ended: string;
begin
  Ended := '';
  if AOutcome.Ending <> zeNone then Ended := ': ' + AOutcome.ToString;
  inherited Create('the line is lost' + Ended + ' (' + Why + ')');
  Outcome := AOutcome;
end;

function ZvtSettings(const Book: string): TZvtSettings;
begin
  Result.Password := 0;
  Result.Config := $BE;
  Result.Currency := 978;
  Result.Book := Book;
  Result.PrintLine := nil;
  Result.PrintText := nil;
  Result.Codepage := cp437;
  Result.Heard := nil;
end;

function ZvtVersion: string;
var
  Room: array[0..31] of AnsiChar;
  Size: NativeUInt;
begin
  Size := zvt_version(PByte(@Room[0]), SizeOf(Room));
  SetString(Result, PAnsiChar(@Room[0]), Min(Size, SizeOf(Room)));
end;

{$IFDEF FPC}
type
  TTcpConnection = class(TZvtConnection)
  private
    FSocket: TInetSocket;
  public
    constructor Create(const Host: string; Port: Word; Milliseconds: Integer);
    destructor Destroy; override;
    function Read(var Buffer: TBytes; Milliseconds: Integer): Integer; override;
    procedure Write(const Bytes: TBytes); override;
  end;

constructor TTcpConnection.Create(const Host: string; Port: Word; Milliseconds: Integer);
var
  Yes: Integer;
begin
  try
    FSocket := TInetSocket.Create(Host, Port, Milliseconds);
  except
    on Error: ESocketError do raise EZvtBroken.CreateFmt('cannot connect to %s:%d: %s', [Host, Port, Error.Message]);
  end;
  { Send each message at once: otherwise the system may delay an acknowledgement by 40 ms. }
  Yes := 1;
  fpSetSockOpt(FSocket.Handle, IPPROTO_TCP, TCP_NODELAY, @Yes, SizeOf(Yes));
end;

destructor TTcpConnection.Destroy;
begin
  FSocket.Free;
  inherited;
end;

function TTcpConnection.Read(var Buffer: TBytes; Milliseconds: Integer): Integer;
var
  Polled: TPoll;
  Found: Integer;
begin
  Polled.Socket := FSocket.Handle;
  Polled.Events := POLLIN;
  Found := poll(Polled, 1, Milliseconds);
  if Found = 0 then Exit(0);
  if Found > 0 then Found := posix_recv(FSocket.Handle, First(Buffer), Length(Buffer), 0);
  if Found < 0 then raise EZvtBroken.Create(LastError);
  if Found = 0 then raise EZvtBroken.Create('the terminal ended the line');
  Result := Found;
end;

procedure TTcpConnection.Write(const Bytes: TBytes);
var
  At, Size: NativeInt;
begin
  At := 0;
  while At < Length(Bytes) do
  begin
    Size := posix_send(FSocket.Handle, @Bytes[At], Length(Bytes) - At, MSG_NOSIGNAL);
    if Size < 0 then raise EZvtBroken.Create(LastError);
    At := At + Size;
  end;
end;

procedure TZvtTill.Connect(const Host: string; Port: Word; Milliseconds: Integer);
begin
  Whole('port', Port, 1, 65535);
  Whole('time-out in milliseconds', Milliseconds, 1, MaxInt);
  Disconnect;
  Connect(TTcpConnection.Create(Host, Port, Milliseconds), Milliseconds);
end;
{$ENDIF}

constructor TZvtTill.Create(const Settings: TZvtSettings);
begin
  Whole('password', Settings.Password, 0, 999999);
  Whole('config', Settings.Config, 0, $FF);
  Whole('currency', Settings.Currency, 0, 9999);
  if zvt_abi <> ZvtAbi then
    raise EZvtUse.CreateFmt('the calls of libzvt are of number %d, and zvt.pas is made for %d', [zvt_abi, ZvtAbi]);
  FPrintLine := Settings.PrintLine;
  FPrintText := Settings.PrintText;
  FCodepage := Settings.Codepage;
  FHeard := Settings.Heard;
  SetLength(FOut, RoomSize);
  SetLength(FText, LineRoom);
  Check(zvt_till_new(FHandle, Settings.Password, Settings.Config, Settings.Currency));
  if Settings.Book <> '' then BeginBook(Settings);
end;

{ Restores the till of the book, or creates the book. }
procedure TZvtTill.BeginBook(const Settings: TZvtSettings);
var
  Answer: TZvtAnswer;
begin
  SetLength(FRecord, RecordRoom);
  FJournal := TZvtJournal.Create(Settings.Book);
  if Length(FJournal.Text) > 0 then Recover(Settings.Book);
  FJournal.Settle;
  if Length(FJournal.Text) = 0 then
  begin
    zvt_record_opening(Settings.Currency, First(FRecord), RecordRoom, Answer);
    MakeDurable(Answer);
  end;
end;

{ Restores the till from the book's records. }
procedure TZvtTill.Recover(const Path: string);
const
  Why: array[1..4] of string = ('line %d does not open a book in this currency', 'line %d is not part of a valid record',
    'record %d contradicts the records before it', 'line %d is not the check of its record: the file was changed or damaged');
var
  Answer: TZvtAnswer;
begin
  zvt_till_recover(FHandle, First(FJournal.Text), Length(FJournal.Text), Answer);
  if Answer.Status = StatusRefused then
    raise EZvtBook.Create(Path + ' is no book of such a till: ' + Format(Why[Answer.Reason], [Answer.Place]));
  Check(Answer.Status);
end;

destructor TZvtTill.Destroy;
begin
  FreeAndNil(FLine);
  FreeAndNil(FJournal);
  zvt_till_free(FHandle);
  inherited;
end;

procedure TZvtTill.RefuseWithin;
begin
  if FRunning then raise EZvtUse.Create('a callback can''t give its till an order or a line');
end;

procedure TZvtTill.Check(Status: Cardinal);
begin
  if Status = StatusClosed then raise EZvtUse.Create('the till is closed');
  if Status <> 0 then raise EZvtRefused.Create(Status);
end;

procedure TZvtTill.Connect(Line: TZvtConnection; Milliseconds: Integer);
var
  Answer: TZvtAnswer;
begin
  try
    Whole('time-out in milliseconds', Milliseconds, 1, MaxInt);
    Disconnect;
    if FJournal <> nil then
    begin
      zvt_record_lost(First(FRecord), RecordRoom, Answer);
      MakeDurable(Answer);
    end;
    Check(zvt_till_connected(FHandle));
  except
    Line.Free;
    raise;
  end;
  FLine := Line;
  FTimeout := Milliseconds;
  SetLength(FUnheard, 0);
end;

procedure TZvtTill.Disconnect;
begin
  RefuseWithin;
  DropLine;
end;

procedure TZvtTill.DropLine;
var
  Step: TZvtStep;
begin
  if FLine = nil then Exit;
  FreeAndNil(FLine);
  Check(zvt_till_lost(FHandle, Step));
  Ended(Step);
end;

function TZvtTill.Register: TZvtOutcome;
begin
  Result := Run(OrderRegister, 0, nil);
end;

function TZvtTill.Pay(Amount: Int64; WantsCancel: TZvtQuestion; const Reference: AnsiString): TZvtOutcome;
begin
  Whole('amount', Amount, 1, ZvtMaxAmount);
  Result := Run(OrderPay, Amount, WantsCancel, Reference);
end;

function TZvtTill.Reverse(Place: Integer; const Reference: AnsiString): TZvtOutcome;
begin
  Whole('place', Place, 0, MaxInt);
  Result := Run(OrderReverse, Place, nil, Reference);
end;

function TZvtTill.CloseDay: TZvtOutcome;
begin
  Result := Run(OrderCloseDay, 0, nil);
end;

function TZvtTill.Ask(const Reference: AnsiString): TZvtSettlement;
var
  Before: Integer;
  Nothing: TZvtSettlementNumbers;
  All: TZvtSettlements;
begin
  Before := State.Settled;
  Run(OrderAsk, 0, nil, Reference);
  All := Settled;
  FillChar(Nothing, SizeOf(Nothing), 0);
  Result := SettlementOf(Nothing);
  if Length(All) > Before then Result := All[Before];
end;

{ Runs an order or an ask to its end. Raises EZvtLine if the connection ended it, EZvtBook if the book failed, EZvtRefused if the
  library refused it, and, once it is over, the exception of a callback. }
function TZvtTill.Run(Order: Cardinal; Number: Int64; WantsCancel: TZvtQuestion; const Reference: AnsiString): TZvtOutcome;
var
  Bytes: TBytes;
  Why: string;
  Raised: TObject;
begin
  CheckReference(Reference);
  RefuseWithin;
  Bytes := GiveOrder(Order, Number);
  FRaised := nil;
  FOutcome := NoOutcome;
  FRunning := True;
  Why := '';
  try
    try
      KeepAndSend(Order, Number, Bytes, Reference);
      HearOut(WantsCancel);
    except
      on Error: EZvtBroken do
      begin
        DropLine;
        if (FOutcome.Ending = zeNone) or FOutcome.IsByLine then Why := Error.Message;
      end;
      else
      begin
        if FJournal <> nil then FJournal.GiveUp;
        DropLine;
        raise;
      end;
    end;
  finally
    FRunning := False;
  end;
  Raised := FRaised;
  FRaised := nil;
  if Raised <> nil then raise Raised;
  if Why <> '' then raise EZvtLine.Create(FOutcome, Why);
  Result := FOutcome;
end;

function TZvtTill.GiveOrder(Order: Cardinal; Number: Int64): TBytes;
var
  Step: TZvtStep;
begin
  if Order = OrderAsk then Check(zvt_till_ask(FHandle, First(FOut), RoomSize, Step))
  else Check(zvt_till_order(FHandle, Order, Number, First(FOut), RoomSize, Step));
  Result := Copy(FOut, 0, Step.Send);
end;

{ Makes the order or the ask durable and then sends it. }
procedure TZvtTill.KeepAndSend(Order: Cardinal; Number: Int64; const Bytes: TBytes; const Reference: AnsiString);
var
  Answer: TZvtAnswer;
  At: AnsiString;
begin
  if FJournal <> nil then
  begin
    At := FormatDateTime('yyyy"-"mm"-"dd"T"hh":"nn":"ss"Z"', UnixToDateTime(seconds_since_1970(nil)));
    if Order = OrderAsk then
      zvt_record_ask(PByte(At), Length(At), PByte(Reference), Length(Reference), First(FRecord), RecordRoom, Answer)
    else
      zvt_record_order(Order, Number, First(Bytes), Length(Bytes), PByte(At), Length(At), PByte(Reference), Length(Reference),
        First(FRecord), RecordRoom, Answer);
    MakeDurable(Answer);
  end;
  FLine.Write(Bytes);
end;

{ After an error the book may lack a record that the till has processed, so this till stops writing it. }
procedure TZvtTill.MakeDurable(const Answer: TZvtAnswer);
begin
  if Answer.Status <> 0 then FJournal.GiveUp;
  Check(Answer.Status);
  FJournal.Append(FRecord, Answer.Size);
end;

procedure TZvtTill.Ended(const Step: TZvtStep);
begin
  if Step.Outcome.Kind <> 0 then FOutcome := OutcomeOf(Step.Outcome);
end;

{ Reads from the terminal until neither an order nor an ask runs. }
procedure TZvtTill.HearOut(WantsCancel: TZvtQuestion);
var
  Room: TBytes;
  Size, Rest: Integer;
  Since: UInt64;
  Asks: Boolean;
begin
  SetLength(Room, 4096);
  Since := GetTickCount64;
  while State.Running <> 0 do
  begin
    Asks := Assigned(WantsCancel) and (FRaised = nil);
    Rest := FTimeout - Int64(GetTickCount64 - Since);
    if Rest <= 0 then raise EZvtBroken.Create('the terminal is silent');
    if Asks then Rest := Min(Rest, 200);
    Size := FLine.Read(Room, Rest);
    if Size > 0 then
    begin
      Hear(Copy(Room, 0, Size));
      Since := GetTickCount64;
    end
    else if Asks and Wants(WantsCancel) and Cancels then
      WantsCancel := nil;
  end;
end;

{ Asks the terminal to cancel the payment. Returns False if it has not acknowledged the payment yet: try again later. }
function TZvtTill.Cancels: Boolean;
var
  Bytes: TBytes;
begin
  try
    Bytes := GiveOrder(OrderCancel, 0);
  except
    on Refused: EZvtRefused do
    begin
      if Refused.Status <> StatusNothingToCancel then raise;
      Exit(False);
    end;
  end;
  KeepAndSend(OrderCancel, 0, Bytes);
  Result := True;
end;

{ Postpones the first exception of a callback until everything that the terminal sent is read and answered. }
function TZvtTill.Wants(Question: TZvtQuestion): Boolean;
begin
  try
    Result := Question;
  except
    Result := False;
    if FRaised = nil then FRaised := TObject(AcquireExceptionObject);
  end;
end;

procedure TZvtTill.Print(const Line: TBytes);
begin
  try
    FPrintLine(Line);
  except
    if FRaised = nil then FRaised := TObject(AcquireExceptionObject);
  end;
end;

procedure TZvtTill.PrintAsText(Place: NativeUInt);
var
  Numbers: TZvtLineNumbers;
  Line: TBytes;
  Text: UTF8String;
begin
  try
    if not LineAt(Place, FCodepage, Line, Numbers) then Exit;
    SetString(Text, PAnsiChar(First(Line)), Length(Line));
    FPrintText(Text, TZvtCopy(Min(Numbers.Copy, Ord(cyOther))));
  except
    if FRaised = nil then FRaised := TObject(AcquireExceptionObject);
  end;
end;

{ Returns a line of the last message, if there is one. }
function TZvtTill.LineAt(Place: NativeUInt; Codepage: TZvtCodepage; var Line: TBytes; var Numbers: TZvtLineNumbers): Boolean;
var
  Status: Cardinal;
begin
  SetLength(Line, 256);
  repeat
    Status := zvt_till_line(FHandle, Place, Ord(Codepage), First(Line), Length(Line), Numbers);
    if Status = StatusArgument then Exit(False);
    Check(Status);
    Result := Numbers.Size <= UInt64(Length(Line));
    SetLength(Line, Numbers.Size);
  until Result;
end;

{ Hands out the lines that the last message has to print. }
procedure TZvtTill.PrintLines;
var
  Place: NativeUInt;
  Numbers: TZvtLineNumbers;
  Line: TBytes;
begin
  Place := 0;
  while LineAt(Place, cpAsSent, Line, Numbers) do
  begin
    if Assigned(FPrintLine) then Print(Line);
    if Assigned(FPrintText) then PrintAsText(Place);
    Inc(Place);
  end;
end;

procedure TZvtTill.Tell(const Message: TBytes);
begin
  try
    FHeard(TextOf(Message));
  except
    if FRaised = nil then FRaised := TObject(AcquireExceptionObject);
  end;
end;

{ Feeds the messages that end in a chunk, and sends the replies. If sending fails, still feeds the rest. Invalid bytes come last: a
  till with a book treats them as a lost connection. }
procedure TZvtTill.Hear(const Piece: TBytes);
var
  Answer: TZvtAnswer;
  Size: Integer;
  Bytes: TBytes;
  Broken: string;
begin
  Broken := '';
  FUnheard := Concat(FUnheard, Piece);
  while Length(FUnheard) > 0 do
  begin
    Size := FindFirst(Answer);
    if Answer.Status = StatusMore then Break;
    if (Answer.Status = StatusRefused) and (FJournal <> nil) then raise EZvtBroken.Create('the terminal sent what is no message');
    if Answer.Status = StatusRefused then Answer.Size := Length(FUnheard) else Check(Answer.Status);
    if FJournal <> nil then FJournal.Append(FRecord, Size);
    Bytes := Copy(FUnheard, 0, Answer.Size);
    FUnheard := Copy(FUnheard, Answer.Size, Length(FUnheard));
    Feed(Bytes, Broken);
    if Assigned(FHeard) then Tell(Bytes);
  end;
  if Broken <> '' then raise EZvtBroken.Create(Broken);
end;

{ Writes the record of the first message, if the till has a book, and returns its size. The answer describes the message. }
function TZvtTill.FindFirst(var Answer: TZvtAnswer): Integer;
begin
  Result := 0;
  if FJournal = nil then
    zvt_scan(First(FUnheard), Length(FUnheard), Answer)
  else
    Result := zvt_record_heard(First(FUnheard), Length(FUnheard), First(FRecord), RecordRoom, Answer);
end;

procedure TZvtTill.Feed(Piece: TBytes; var Broken: string);
var
  Step: TZvtStep;
  Status: Cardinal;
begin
  while Length(Piece) > 0 do
  begin
    Status := zvt_till_feed_all(FHandle, First(Piece), Length(Piece), First(FOut), RoomSize, First(FText), LineRoom, Step);
    Ended(Step);
    if (Step.Send > 0) and (Broken = '') then
      try
        FLine.Write(Copy(FOut, 0, Step.Send));
      except
        on Error: EZvtBroken do Broken := Error.Message;
      end;
    if Step.Printed = 1 then PrintLines;
    if Status = StatusRefused then raise EZvtBroken.Create('the terminal sent what is no message');
    Check(Status);
    Piece := Copy(Piece, Step.Taken, Length(Piece));
  end;
end;

function TZvtTill.State: TZvtState;
begin
  Check(zvt_till_state(FHandle, Result));
end;

function TZvtTill.NameOfCard: string;
var
  Room: array[0..197] of AnsiChar;
begin
  SetString(Result, PAnsiChar(@Room[0]), zvt_till_card_name(FHandle, PByte(@Room[0]), SizeOf(Room)));
end;

function TZvtTill.NumberOfCard: string;
var
  Room: array[0..197] of AnsiChar;
begin
  SetString(Result, PAnsiChar(@Room[0]), zvt_till_card_number(FHandle, PByte(@Room[0]), SizeOf(Room)));
end;

function TZvtTill.SumOfBook: Int64;
begin
  Result := State.Total;
end;

function TZvtTill.IsRegistered: Boolean;
begin
  Result := State.Registered = 1;
end;

function TZvtTill.Settled: TZvtSettlements;
var
  One: TZvtSettlementNumbers;
  Place: Integer;
begin
  Result := nil;
  SetLength(Result, State.Settled);
  for Place := 0 to High(Result) do
  begin
    Check(zvt_till_settled(FHandle, Place, One));
    Result[Place] := SettlementOf(One);
  end;
end;

function TZvtTill.PendingNumbers: TZvtPendingNumbers;
begin
  Check(zvt_till_pending(FHandle, Result));
end;

function TZvtTill.PendingOrder: TZvtPending;
var
  Numbers: TZvtPendingNumbers;
begin
  Numbers := PendingNumbers;
  Result.Kind := TZvtPendingKind(Numbers.Kind);
  Result.Place := Numbers.Place;
end;

function TZvtTill.IsLastKnown: Boolean;
begin
  Result := PendingNumbers.LastKnown = 1;
end;

function TZvtTill.LastOutcome: TZvtOutcome;
begin
  Result := OutcomeOf(State.Last);
end;

function TZvtTill.Entries(Count: UInt64; Booked: Boolean): TZvtEntries;
var
  Entry: TZvtEntryNumbers;
  Place: Integer;
begin
  Result := nil;
  SetLength(Result, Count);
  for Place := 0 to High(Result) do
  begin
    if Booked then Check(zvt_till_entry(FHandle, Place, Entry)) else Check(zvt_till_unclear(FHandle, Place, Entry));
    Result[Place] := EntryOf(Entry, Booked);
  end;
  if Booked then AddNotes(Result, 'booked') else AddNotes(Result, 'unclear');
end;

{ The text up to the first of these characters, which it takes off the text with that character. }
function NextPart(var Text: AnsiString; Ending: AnsiChar): AnsiString;
var
  Size: Integer;
begin
  Size := Pos(Ending, Text);
  if Size = 0 then Size := Length(Text) + 1;
  Result := Copy(Text, 1, Size - 1);
  Delete(Text, 1, Size);
end;

{ Adds the times and references that the book has of the payments of this kind. }
procedure TZvtTill.AddNotes(var Entries: TZvtEntries; const Kind: AnsiString);
var
  Lines, Line, Key: AnsiString;
  Place: Integer;
begin
  Place := 0;
  Lines := NoteLines;
  while (Lines <> '') and (Place < Length(Entries)) do
  begin
    Line := NextPart(Lines, #10);
    if NextPart(Line, ' ') <> Kind then Continue;
    while Line <> '' do
    begin
      Key := NextPart(Line, ' ');
      if Key = 'at' then Entries[Place].At := NextPart(Line, ' ') else Entries[Place].Reference := NextPart(Line, ' ');
    end;
    Inc(Place);
  end;
end;

{ The lines of zvt_record_notes for the till's book. }
function TZvtTill.NoteLines: AnsiString;
var
  Held, Room: TBytes;
  Answer: TZvtAnswer;
begin
  Result := '';
  if FJournal = nil then Exit;
  Held := FJournal.Records;
  Room := nil;
  while Length(Held) > 0 do
  begin
    zvt_record_notes(FHandle, First(Held), Length(Held), First(Room), Length(Room), Answer);
    Check(Answer.Status);
    if Answer.Size = UInt64(Length(Room)) then Break;
    SetLength(Room, Answer.Size);
  end;
  SetString(Result, PAnsiChar(First(Room)), Length(Room));
end;

function TZvtTill.Book: TZvtEntries;
begin
  Result := Entries(State.Booked, True);
end;

function TZvtTill.Unclear: TZvtEntries;
begin
  Result := Entries(State.Unclear, False);
end;

function TZvtTill.UnclearReversals: TZvtPlaces;
var
  Booked: TZvtEntries;
  Place: Integer;
begin
  Result := nil;
  Booked := Book;
  for Place := 0 to High(Booked) do
    if Booked[Place].Doubt = zdUnclearReversal then
    begin
      SetLength(Result, Length(Result) + 1);
      Result[High(Result)] := Place;
    end;
end;

function TZvtTill.Save: TBytes;
var
  Answer: TZvtAnswer;
begin
  Result := nil;
  repeat
    zvt_till_save(FHandle, First(Result), Length(Result), Answer);
    Check(Answer.Status);
    if Answer.Size = UInt64(Length(Result)) then Exit;
    SetLength(Result, Answer.Size);
  until False;
end;

procedure TZvtTill.Load(const Saved: TBytes);
begin
  if FJournal <> nil then raise EZvtUse.Create('a till that keeps a book is that of its book, and of no save');
  Disconnect;
  Check(zvt_till_load(FHandle, First(Saved), Length(Saved)));
end;

constructor TZvtJournal.Create(const Path: string);
var
  Held: TBytes;
  Stop, Rest: Integer;
begin
  FPath := Path;
  FFile := -1;
  FFile := OpenOrMake;
  if flock(FFile, LOCK_EX or LOCK_NB) <> 0 then
  begin
    if errno_location()^ <> EAGAIN then RaiseLast('open');
    raise EZvtBook.Create('another till is using the book ' + FPath + ': stop it first, or name another file');
  end;
  Held := Durable;
  Stop := Accepted(Held);
  FText := Copy(Held, 0, Stop);
  Rest := Stop;
  if (Rest < Length(Held)) and (Held[Rest] = 10) then Inc(Rest);
  FCut := Copy(Held, Rest, Length(Held));
  FGate := Stop;
end;

destructor TZvtJournal.Destroy;
begin
  if FFile >= 0 then posix_close(FFile);
  inherited;
end;

procedure TZvtJournal.RaiseLast(const What: string);
begin
  raise EZvtBook.CreateFmt('cannot %s the book %s: %s', [What, FPath, LastError]);
end;

{ Checks the result of a call that returns -1 if it fails. }
function TZvtJournal.Done(Answer: Int64; const What: string): Int64;
begin
  if Answer < 0 then RaiseLast(What);
  Result := Answer;
end;

{ Opens the file. If it is created, only its owner may read it. }
function TZvtJournal.OpenOrMake: Integer;
begin
  Result := posix_open(PAnsiChar(AnsiString(FPath)), O_RDWR or O_CREAT or O_EXCL or O_CLOEXEC, $180);
  if Result >= 0 then Exit;
  if errno_location()^ <> EEXIST then RaiseLast('open');
  if not FileExists(FPath) then
    raise EZvtBook.Create(FPath + ' is not a regular file: name a regular file, or one that does not exist yet');
  Result := Done(posix_open(PAnsiChar(AnsiString(FPath)), O_RDWR or O_CLOEXEC, 0), 'open');
end;

{ Reads the file and makes its bytes durable: after a kill, bytes that a read returns need not be on the disk. }
function TZvtJournal.Durable: TBytes;
var
  Room: TBytes;
  Size: Int64;
begin
  Done(fsync(FFile), 'open');
  posix_fadvise(FFile, 0, 0, POSIX_FADV_DONTNEED);
  Result := nil;
  SetLength(Room, 1 shl 16);
  repeat
    Size := Done(pread(FFile, First(Room), Length(Room), Length(Result)), 'open');
    Result := Concat(Result, Copy(Room, 0, Size));
  until Size = 0;
end;

function TZvtJournal.Records: TBytes;
var
  Room: TBytes;
  Size: Int64;
begin
  Result := nil;
  SetLength(Room, FGate);
  repeat
    Size := Done(pread(FFile, First(Room), FGate - Length(Result), Length(Result)), 'read');
    Result := Concat(Result, Copy(Room, 0, Size));
  until (Size = 0) or (Length(Result) = FGate);
end;

{ Returns the size of the complete lines before the first empty one, if a book may have these bytes. }
function TZvtJournal.Accepted(const Held: TBytes): Integer;
var
  At: Integer;
  Begun, Named: Boolean;
begin
  Begun := (Length(Held) <= 1) or ((Held[0] = 10) and (Length(Held) <= OpeningRoom + 1));
  Named := Length(Held) >= Length(Format_);
  for At := 1 to Length(Format_) do
    if Named then Named := Held[At - 1] = Ord(Format_[At]);
  if not (Begun or Named) then
    raise EZvtBook.Create(FPath + ' is not a till''s book (left unchanged): name a book, or a file that does not exist yet');
  Result := 0;
  for At := 0 to High(Held) do
  begin
    if Held[At] <> 10 then Continue;
    if At = Result then Break;
    Result := At + 1;
  end;
  if Length(Held) - Result > MostAfter then
    raise EZvtBook.CreateFmt('%d bytes follow the first empty line of %s, more than a crash can leave: if an editor inserted that line, delete it',
      [Length(Held) - Result, FPath]);
end;

procedure TZvtJournal.Settle;
begin
  if Length(FCut) > 0 then KeepCut;
  SyncFolder;
  { The truncation is on the disk before a gate is written: after a torn gate, the removed bytes would count. }
  Done(ftruncate(FFile, FGate), 'open');
  Done(fdatasync(FFile), 'open');
  Write(TBytes.Create(10), FGate, 'open');
end;

procedure TZvtJournal.KeepCut;
var
  Rest: Integer;
  At: Int64;
begin
  Rest := Done(posix_open(PAnsiChar(AnsiString(FPath + '.cut')), O_WRONLY or O_APPEND or O_CREAT or O_CLOEXEC, $180), 'open');
  try
    At := 0;
    while At < Length(FCut) do At := At + Done(posix_write(Rest, @FCut[At], Length(FCut) - At), 'open');
    Done(fsync(Rest), 'open');
  finally
    posix_close(Rest);
  end;
end;

{ Makes the name of the file durable. }
procedure TZvtJournal.SyncFolder;
var
  Folder: Integer;
begin
  Folder := Done(posix_open(PAnsiChar(AnsiString(ExtractFilePath(ExpandFileName(FPath)))), O_CLOEXEC, 0), 'open');
  try
    Done(fsync(Folder), 'open');
  finally
    posix_close(Folder);
  end;
end;

procedure TZvtJournal.Append(const Bytes: TBytes; Size: Integer);
var
  After: TBytes;
begin
  if FFailed then raise EZvtBook.Create('the book failed before, and takes no record any more: open it anew');
  FFailed := True;
  After := Copy(Bytes, 1, Size);
  After[Size - 1] := 10;
  Write(After, FGate + 1, 'write');
  Write(TBytes.Create(Bytes[0]), FGate, 'write');
  FFailed := False;
  FGate := FGate + Size;
end;

procedure TZvtJournal.Write(const Bytes: TBytes; Place: Int64; const What: string);
var
  At: Int64;
begin
  At := 0;
  while At < Length(Bytes) do At := At + Done(pwrite(FFile, @Bytes[At], Length(Bytes) - At, Place + At), What);
  Done(fdatasync(FFile), What);
end;

procedure TZvtJournal.GiveUp;
begin
  FFailed := True;
end;

end.
