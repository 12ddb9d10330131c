{ What zvt.pas owes its users; languages_check.py gives the words, and says what each of them is to print. }
program tillcheck;

{$IFDEF FPC}{$MODE DELPHI}{$ENDIF}

uses
  SysUtils, Classes, Math, zvt;

const
  Ack = '800000';
  Done = '060F00';
  PrintLine = '06D107005468616E6B73';
  Approved = '040F1027000400000000' + '12340B00001787' + '0005';
  { A receipt of two lines for the customer, the second in code page 437; and a status with the card's name and its number. }
  Block = '06D316' + '0614' + '1F070102' + '250E' + '070544616E6B65' + '0705477281E165';
  WithCard = '040F27' + '27000400000000' + '12340B00001787' + '0005' + '22F0F86726123456781234' + '8BF0F9' + '6769726F6361726400';

type
  ENoPaper = class(Exception);

  { A terminal in memory: what it says is read, and after that the line ends. }
  TMemory = class(TZvtConnection)
  public
    Pieces: TStringList;
    Sent: string;
    Freed: PBoolean;
    Silent: Boolean;
    constructor Create;
    destructor Destroy; override;
    function Says(const Digits: string): TMemory;
    function Read(var Buffer: TBytes; Milliseconds: Integer): Integer; override;
    procedure Write(const Bytes: TBytes); override;
  end;

  TCheck = class
    Till: TZvtTill;
    Memory: TMemory;
    Lines: Integer;
    Asked: Boolean;
    Step: string;
    Texts: string;
    procedure Registers(PrintLine: TZvtPrintLine; const Book: string = '');
    procedure Hears(const Text: string);
    procedure Prints(const Text: UTF8String; Copy: TZvtCopy);
    procedure Raises(const Line: TBytes);
    procedure Orders(const Line: TBytes);
    function Cancels: Boolean;
    procedure Noted;
    function Call(const Name: string): string;
    procedure Tells(const Name: string);
    procedure Layouts;
    procedure Arguments;
    procedure Uses_;
    function Result_(const Words: TArray<string>): string;
    procedure Show;
    procedure Play(const Path: string);
    procedure Leaks(Count: Integer);
    procedure PayAndReverse(Port: Word; const Book: string; Seed: Integer);
  end;

function Bytes(const Digits: string): TBytes;
var
  At: Integer;
begin
  Result := nil;
  SetLength(Result, Length(Digits) div 2);
  for At := 0 to High(Result) do Result[At] := StrToInt('$' + Copy(Digits, 2 * At + 1, 2));
end;

function Digits(const Bytes: TBytes): string;
var
  It: Byte;
begin
  Result := '';
  for It in Bytes do Result := Result + IntToHex(It, 2);
end;

procedure Say(const Text: string);
begin
  WriteLn(Text);
  Flush(Output);
end;

constructor TMemory.Create;
begin
  Pieces := TStringList.Create;
end;

destructor TMemory.Destroy;
begin
  if Freed <> nil then Freed^ := True;
  Pieces.Free;
  inherited;
end;

function TMemory.Says(const Digits: string): TMemory;
begin
  Pieces.Add(Digits);
  Result := Self;
end;

function TMemory.Read(var Buffer: TBytes; Milliseconds: Integer): Integer;
var
  Piece: TBytes;
begin
  if Pieces.Count = 0 then
  begin
    if Silent then
    begin
      Sleep(Milliseconds);
      Exit(0);
    end;
    raise EZvtBroken.Create('the terminal ended the line');
  end;
  Piece := Bytes(Pieces[0]);
  Pieces.Delete(0);
  Result := Min(Length(Piece), Length(Buffer));
  if Result > 0 then Move(Piece[0], Buffer[0], Result);
  if Result < Length(Piece) then Pieces.Insert(0, Digits(Copy(Piece, Result, Length(Piece))));
end;

procedure TMemory.Write(const Bytes: TBytes);
begin
  Sent := Sent + Digits(Bytes);
end;

procedure TCheck.Hears(const Text: string);
begin
  Texts := Texts + Text;
end;

procedure TCheck.Prints(const Text: UTF8String; Copy: TZvtCopy);
var
  It: AnsiChar;
begin
  for It in Text do Texts := Texts + IntToHex(Ord(It), 2);
  Texts := Texts + ' ' + IntToStr(Ord(Copy)) + LineEnding;
end;

procedure TCheck.Registers(PrintLine: TZvtPrintLine; const Book: string);
var
  Settings: TZvtSettings;
begin
  Settings := ZvtSettings(Book);
  Settings.PrintLine := PrintLine;
  Settings.PrintText := Prints;
  if Book <> '' then Settings.Heard := Hears;
  Texts := '';
  FreeAndNil(Till);
  Till := TZvtTill.Create(Settings);
  Memory := TMemory.Create;
  Till.Connect(Memory.Says(Ack + Done), 1000);
  Till.Register;
end;

procedure TCheck.Raises(const Line: TBytes);
begin
  Inc(Lines);
  raise ENoPaper.Create('no paper');
end;

procedure TCheck.Orders(const Line: TBytes);
begin
  Till.Pay(1);
end;

function TCheck.Cancels: Boolean;
begin
  if Asked then Memory.Says('061E016C') else Memory.Says(Ack);
  Asked := True;
  Result := True;
end;

procedure TCheck.Noted;
begin
  Say('noted: ' + Till.Book[0].Reference + ', ' + IntToStr(Length(Till.Book[0].At)));
end;

function TCheck.Call(const Name: string): string;
var
  Settings: TZvtSettings;
begin
  Result := '';
  Settings := ZvtSettings;
  if Name = 'password' then Settings.Password := 1000000;
  if Name = 'config' then Settings.Config := $1BE;
  if Name = 'currency' then Settings.Currency := -1;
  if Name = 'amount 0' then Till.Pay(0)
  else if Name = 'amount' then Till.Pay(1000000000000)
  else if Name = 'place' then Till.Reverse(-1)
  else if Name = 'offline' then Till.Pay(1)
  else if Name = 'goes on' then Result := Till.CloseDay.ToString
  else if Name = 'heard' then Result := Till.Pay(1234, nil, 'A-1009').ToString
  else if Name = 'cancels' then Result := Till.Pay(1234, Cancels).ToString
  else if (Name = 'prints') or (Name = 'raises') or (Name = 'within') or (Name = 'silent') then Result := Till.Pay(1234).ToString
  else TZvtTill.Create(Settings).Free;
end;

{ Says what a call raises: its exception by the kind that languages_check.py knows, and the text. }
procedure TCheck.Tells(const Name: string);
var
  Kind: string;
begin
  try
    Say(Name + ': ' + Call(Name));
  except
    on Error: Exception do
    begin
      Kind := Error.ClassName;
      if Error is EZvtArgument then Kind := 'argument';
      if Error is EZvtUse then Kind := 'use';
      if Error is EZvtRefused then Kind := 'refused';
      if Error is EZvtLine then Kind := 'line';
      Say(Name + ': ' + Kind + ': ' + Error.Message);
    end;
  end;
end;

function Offset(const Member; const Base): string;
begin
  Result := ' ' + IntToStr(PtrUInt(@Member) - PtrUInt(@Base));
end;

procedure TCheck.Layouts;
var
  A: TZvtAnswer;
  O: TZvtOutcomeNumbers;
  S: TZvtStep;
  L: TZvtLineNumbers;
  T: TZvtState;
  E: TZvtEntryNumbers;
  M: TZvtSettlementNumbers;
  P: TZvtPendingNumbers;
  H: TZvtHandle;
begin
  Say('version ' + ZvtVersion);
  Say('_Handle ' + IntToStr(SizeOf(H)) + Offset(H.At, H) + Offset(H.Full, H));
  Say('_Answer ' + IntToStr(SizeOf(A)) + Offset(A.Size, A) + Offset(A.Place, A) + Offset(A.Reason, A) + Offset(A.Status, A));
  Say('_Outcome ' + IntToStr(SizeOf(O)) + Offset(O.Kind, O) + Offset(O.Code, O) + Offset(O.Trace, O) + Offset(O.Receipt, O) + Offset(O.HasReceipt, O));
  Say('_Step ' + IntToStr(SizeOf(S)) + Offset(S.Taken, S) + Offset(S.Send, S) + Offset(S.Place, S) + Offset(S.Line, S) + Offset(S.Reason, S)
    + Offset(S.Message, S) + Offset(S.Printed, S) + Offset(S.Outcome, S));
  Say('_Line ' + IntToStr(SizeOf(L)) + Offset(L.Size, L) + Offset(L.Copy, L));
  Say('_State ' + IntToStr(SizeOf(T)) + Offset(T.Total, T) + Offset(T.Booked, T) + Offset(T.Unclear, T) + Offset(T.UnclearReversals, T) + Offset(T.Settled, T)
    + Offset(T.Held, T)
    + Offset(T.Registered, T) + Offset(T.Running, T) + Offset(T.Last, T));
  Say('_Entry ' + IntToStr(SizeOf(E)) + Offset(E.Amount, E) + Offset(E.Trace, E) + Offset(E.Receipt, E) + Offset(E.HasReceipt, E) + Offset(E.Reversed, E)
    + Offset(E.Cause, E) + Offset(E.Doubt, E));
  Say('_Settlement ' + IntToStr(SizeOf(M)) + Offset(M.Place, M) + Offset(M.Kind, M) + Offset(M.Trace, M) + Offset(M.Receipt, M) + Offset(M.HasReceipt, M));
  Say('_Pending ' + IntToStr(SizeOf(P)) + Offset(P.Place, P) + Offset(P.Kind, P) + Offset(P.LastKnown, P));
end;

procedure TCheck.Arguments;
begin
  Tells('password');
  Tells('config');
  Tells('currency');
  Till := TZvtTill.Create(ZvtSettings);
  Tells('amount 0');
  Tells('amount');
  Tells('place');
  Tells('offline');
  Say('status 0A: ' + ZvtStatusName($0A));
end;

{ Callbacks that raise or call their till, silence, and cancelled payments. }
procedure TCheck.Uses_;
var
  Freed: Boolean;
begin
  Registers(Raises);
  Memory.Says(Ack + PrintLine + Approved + Done + PrintLine);
  Tells('raises');
  Say('after: ' + Till.Last.ToString + ', lines ' + IntToStr(Lines) + ', sent ' + Copy(Memory.Sent, Length(Memory.Sent) - 23, 24));
  Memory.Says(Ack + Done);
  Tells('goes on');

  Registers(nil);
  Memory.Says(Ack + PrintLine + Block + WithCard + Done);
  Tells('prints');
  Write(Texts);
  Say('card ' + Till.CardName + ' ' + Till.CardNumber);

  Registers(Orders);
  Memory.Says(Ack + PrintLine + Approved + Done);
  Tells('within');
  Say('after: ' + Till.Last.ToString + ', booked ' + IntToStr(Length(Till.Book)));

  Registers(nil, GetEnvironmentVariable('ZVT_BOOK'));
  Memory.Says(Ack + '04FF010A' + Approved + Done);
  Tells('heard');
  Write(Texts);
  Noted;
  FreeAndNil(Till);
  Till := TZvtTill.Create(ZvtSettings(GetEnvironmentVariable('ZVT_BOOK')));
  Noted;

  Registers(nil);
  Memory.Silent := True;
  Freed := False;
  Memory.Freed := @Freed;
  Tells('cancels');
  Say('sent ' + Copy(Memory.Sent, Length(Memory.Sent) - 11, 12));
  Tells('silent');
  Say('unclear [' + Till.Unclear[0].ToString + '], line closed ' + LowerCase(BoolToStr(Freed, True)));
end;

function Settled(const One: TZvtSettlement): string;
begin
  Result := 'nothing';
  if One.Kind <> zsNone then Result := One.ToString + ', ' + IntToStr(One.Place);
end;

function TCheck.Result_(const Words: TArray<string>): string;
begin
  try
    if Words[0] = 'register' then Exit(Till.Register.ToString);
    if Words[0] = 'pay' then Exit(Till.Pay(StrToInt64(Words[1])).ToString);
    if Words[0] = 'reverse' then Exit(Till.Reverse(StrToInt(Words[1])).ToString);
    if Words[0] = 'ask' then Exit(Settled(Till.Ask));
    Exit(Till.CloseDay.ToString);
  except
    on Lost: EZvtLine do
    begin
      Result := 'ask';
      if Lost.Outcome.Ending <> zeNone then Result := Lost.Outcome.ToString;
      Result := Result + ', and the line is lost';
    end;
    on Refused: EZvtRefused do Result := 'refused: ' + IntToStr(Refused.Status);
  end;
end;

procedure TCheck.Show;
var
  Entry: TZvtEntry;
  One: TZvtSettlement;
begin
  if Till = nil then Exit;
  for Entry in Till.Book do Say('booked ' + Entry.ToString);
  for Entry in Till.Unclear do Say('unclear ' + Entry.ToString);
  for One in Till.Settled do Say('settled ' + Settled(One));
  if Till.Pending.Kind = zpNone then Say('knows last ' + IntToStr(Ord(Till.KnowsLast)))
  else Say('pending ' + IntToStr(Ord(Till.Pending.Kind)) + ', ' + IntToStr(Till.Pending.Place));
  Say('total ' + IntToStr(Till.Total) + ', saved ' + Digits(Till.Save));
  FreeAndNil(Till);
end;

{ Plays the tills, orders and pieces of a file, and says what comes of them. }
procedure TCheck.Play(const Path: string);
var
  Rows: TStringList;
  Words: TArray<string>;
  At: Integer;
  Closed: Boolean;
begin
  Rows := TStringList.Create;
  Rows.LoadFromFile(Path);
  At := 0;
  Closed := True;
  while At < Rows.Count do
  begin
    Words := Rows[At].Split([' ']);
    Inc(At);
    if Words[0] = 'till' then
    begin
      Show;
      Till := TZvtTill.Create(ZvtSettings);
      Closed := True;
      Continue;
    end;
    if Closed then
    begin
      Memory := TMemory.Create;
      Memory.Freed := @Closed;
      Closed := False;
      Till.Connect(Memory, 1000);
    end;
    Memory.Pieces.Clear;
    while (At < Rows.Count) and (Rows[At][1] = '+') do
    begin
      Memory.Says(Copy(Rows[At], 3));
      Inc(At);
    end;
    Say(Result_(Words));
  end;
  Show;
  Rows.Free;
end;

function ResidentMegabytes: Int64;
var
  Rows: TStringList;
  Row: string;
begin
  Result := -1;
  Rows := TStringList.Create;
  Rows.LoadFromFile('/proc/self/status');
  for Row in Rows do
    if Row.StartsWith('VmRSS:') then Result := StrToInt64(Trim(Copy(Row, 7, Length(Row) - 9))) div 1024;
  Rows.Free;
end;

{ Makes so many tills, each of which pays; says by how many MB the process grew after the first tenth. }
procedure TCheck.Leaks(Count: Integer);
var
  Number: Integer;
  Before: Int64;
begin
  Before := 0;
  for Number := 0 to Count - 1 do
  begin
    if Number = Count div 10 then Before := ResidentMegabytes;
    Registers(nil);
    Memory.Says(Ack + Approved + Done);
    Till.Pay(1234);
    Till.Load(Till.Save);
  end;
  Say('grown ' + IntToStr(ResidentMegabytes - Before));
end;

{ The till that kill_check.py kills. It says what it begins, of a reversal the place, and when that has ended. }
procedure TCheck.PayAndReverse(Port: Word; const Book: string; Seed: Integer);
var
  Places: TZvtPlaces;
  Entries: TZvtEntries;
  Place: Integer;
  Began: UInt64;
begin
  RandSeed := Seed;
  Say('opens 0');
  Till := TZvtTill.Create(ZvtSettings(Book));
  Say('connects 0');
  Till.Connect('127.0.0.1', Port, 10000);
  Say('registers 0');
  Till.Register;
  while True do
  begin
    Places := Till.UnclearReversals;
    if (Length(Places) = 0) or (Random < 0.7) then
    begin
      Say('pays 0');
      Till.Pay(1 + Random(999999));
      Entries := Till.Book;
      Places := nil;
      for Place := Max(0, Length(Entries) - 5) to High(Entries) do
        if not Entries[Place].Reversed then
        begin
          SetLength(Places, Length(Places) + 1);
          Places[High(Places)] := Place;
        end;
    end;
    Place := Places[Random(Length(Places))];
    Say('begins ' + IntToStr(Place));
    Began := GetTickCount64;
    Till.Reverse(Place);
    Say('ended ' + FloatToStrF((GetTickCount64 - Began) / 1000, ffFixed, 15, 3));
  end;
end;

var
  Check: TCheck;
  Word_: string;
begin
  Check := TCheck.Create;
  Word_ := ParamStr(1);
  if Word_ = 'layouts' then Check.Layouts
  else if Word_ = 'arguments' then Check.Arguments
  else if Word_ = 'uses' then Check.Uses_
  else if Word_ = 'play' then Check.Play(ParamStr(2))
  else if Word_ = 'leaks' then Check.Leaks(StrToInt(ParamStr(2)))
  else if Word_ = 'kill' then Check.PayAndReverse(StrToInt(ParamStr(2)), ParamStr(3), StrToInt(ParamStr(4).Split([' '])[0]) * 1000 + StrToInt(ParamStr(4).Split([' '])[1]))
  else raise Exception.Create(Word_);
  Check.Till.Free;
  Check.Free;
end.
