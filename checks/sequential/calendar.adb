--  Days of the week and of the year, by `case` and if expressions.
pragma Profile (Ravenscar);
pragma Partition_Elaboration_Policy (Sequential);
with Control_IO; use Control_IO;
package App is
   type Month is range 1 .. 12;
   subtype Day is Integer range 1 .. 31;
   subtype Year is Integer range 1583 .. 9999;
   type Date is record Of_Year : Year; Of_Month : Month; Of_Day : Day; end record;
   procedure Run;
end App;
package body App is
   function Is_Leap (Y : Year) return Boolean is
   begin
      return Y mod 4 = 0 and then (Y mod 100 /= 0 or else Y mod 400 = 0);
   end Is_Leap;

   procedure Length_Of (Y : Year; M : Month; Days : out Day) is
   begin
      case M is
         when 2 =>
            case Is_Leap (Y) is
               when True => Days := 29;
               when others => Days := 28;
            end case;
         when 4 | 6 | 9 | 11 => Days := 30;
         when others => Days := 31;
      end case;
   end Length_Of;

   --  0 is Sunday.
   function Weekday (Y : Integer; M : Integer; D : Integer) return Integer is
   begin
      return (if M < 3 then Weekday (Y - 1, M + 12, D) else (D + 13 * (M + 1) / 5 + Y + Y / 4 - Y / 100 + Y / 400 + 6) mod 7);
   end Weekday;

   procedure Next (D : in out Date) is
      Length : Day := 31;
   begin
      Length_Of (D.Of_Year, D.Of_Month, Length);
      if D.Of_Day < Length then
         D.Of_Day := D.Of_Day + 1;
      else
         D.Of_Day := 1;
         if D.Of_Month = Month'Last then
            D.Of_Month := Month'First;
            D.Of_Year := D.Of_Year + 1;
         else
            D.Of_Month := D.Of_Month + 1;
         end if;
      end if;
   end Next;

   procedure Set (D : in out Date; Y : Year; M : Month; N : Day) is
   begin
      D.Of_Year := Y;
      D.Of_Month := M;
      D.Of_Day := N;
   end Set;

   procedure Show (D : in Date) is
   begin
      Put ("date", D.Of_Year * 10_000 + Integer (D.Of_Month) * 100 + D.Of_Day);
      Put ("weekday", Weekday (D.Of_Year, Integer (D.Of_Month), D.Of_Day));
   end Show;

   procedure Run is
      D       : Date;
      Fridays : Natural := 0;
   begin
      Set (D, 1815, 12, 10);
      Show (D);
      Set (D, 2000, 2, 28);
      Show (D);
      Next (D);
      Next (D);
      Show (D);
      Set (D, 2023, 1, 1);
      while D.Of_Year = 2023 loop
         if D.Of_Day = 13 and then Weekday (D.Of_Year, Integer (D.Of_Month), D.Of_Day) = 5 then
            Fridays := Fridays + 1;
            Show (D);
         end if;
         Next (D);
      end loop;
      Put ("fridays", Fridays);
      Show (D);
      Set (D, 9999, 12, 31);
      Show (D);
      Next (D);
      Show (D);
   end Run;
end App;
with App;
procedure Main is
begin
   App.Run;
end Main;
