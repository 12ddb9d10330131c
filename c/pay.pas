{ Runs the steps of a shop's day at a terminal: pay HOST PORT BOOK STEP... Start `zvt terminal --port PORT` first. }
program pay;

{$IFDEF FPC}{$MODE DELPHI}{$ENDIF}

uses
  SysUtils, zvt;

type
  TShop = class
    Till: TZvtTill;
    procedure PrintText(const Text: UTF8String; Copy: TZvtCopy);
    function Run(const Step: string; Number: Int64): string;
  end;

procedure TShop.PrintText(const Text: UTF8String; Copy: TZvtCopy);
begin
  WriteLn('  | ', Text);
end;

{ A step: register, pay:CENTS, reverse:PAYMENT (from 1) or close. }
function TShop.Run(const Step: string; Number: Int64): string;
begin
  try
    if Step = 'register' then Exit(Till.Register.ToString);
    if Step = 'pay' then Exit(Till.Pay(Number).ToString);
    if Step = 'reverse' then Exit(Till.Reverse(Number - 1).ToString);
    if Step = 'close' then Exit(Till.CloseDay.ToString);
    raise EZvtArgument.Create('a step is register, pay:N, reverse:N or close, and not ' + Step);
  except
    on Lost: EZvtLine do Result := Lost.Outcome.ToString + ', and the line is lost';
    on Refused: EZvtRefused do Result := 'refused: ' + Refused.Message;
  end;
end;

var
  Shop: TShop;
  Settings: TZvtSettings;
  Entry: TZvtEntry;
  Step: TArray<string>;
  Told: string;
  Number: Int64;
  At: Integer;
begin
  Shop := TShop.Create;
  try
    Settings := ZvtSettings(ParamStr(3));
    Settings.PrintText := Shop.PrintText;
    Shop.Till := TZvtTill.Create(Settings);
    Shop.Till.Connect(ParamStr(1), StrToInt(ParamStr(2)), 60000);
    for At := 4 to ParamCount do
    begin
      Step := ParamStr(At).Split([':']);
      Number := 0;
      if Length(Step) = 2 then Number := StrToInt64(Step[1]);
      Told := Shop.Run(Step[0], Number);
      WriteLn(ParamStr(At), ' -> ', Told);
      Flush(Output);
    end;
    for Entry in Shop.Till.Book do WriteLn('booked ', Entry.ToString);
    for Entry in Shop.Till.Unclear do WriteLn('unclear ', Entry.ToString);
    WriteLn('total ', Shop.Till.Total);
  finally
    Shop.Till.Free;
    Shop.Free;
  end;
end.
