--  A bounded buffer of four places in a ring: first in, first out. A producer that is faster than the consumer finds it full now and then.
pragma Profile (Ravenscar);
pragma Partition_Elaboration_Policy (Sequential);
with Control_IO; use Control_IO;
package App is
   Capacity : constant Integer := 4;
   Rounds   : constant Integer := 12;

   subtype Place is Integer range 0 .. Capacity - 1;
   subtype Filling is Integer range 0 .. Capacity;
   type Places is array (Place) of Integer;
   type Buffer is record
      Values : Places;
      First  : Place;
      Count  : Filling;
   end record;

   procedure Run;
end App;
package body App is
   Queue   : Buffer;
   Refused : Natural := 0;
   Missed  : Natural := 0;

   function Is_Full (Count : Filling) return Boolean is
   begin
      return Count = Capacity;
   end Is_Full;

   function Behind (First : Place; Steps : Filling) return Place is
   begin
      return (First + Steps) mod Capacity;
   end Behind;

   procedure Clear (B : in out Buffer) is
   begin
      B.First := 0;
      B.Count := 0;
      for P in Place'First .. Place'Last loop
         B.Values (P) := 0;
      end loop;
   end Clear;

   procedure Insert (B : in out Buffer; Value : in Integer; Done : out Boolean) is
   begin
      Done := not Is_Full (B.Count);
      if Done then
         B.Values (Behind (B.First, B.Count)) := Value;
         B.Count := B.Count + 1;
      end if;
   end Insert;

   procedure Remove (B : in out Buffer; Value : out Integer; Done : out Boolean) is
   begin
      Done := B.Count > 0;
      Value := 0;
      if Done then
         Value := B.Values (B.First);
         B.First := Behind (B.First, 1);
         B.Count := B.Count - 1;
      end if;
   end Remove;

   procedure Produce (Value : Integer) is
      Done : Boolean := False;
   begin
      Insert (Queue, Value, Done);
      if not Done then
         Refused := Refused + 1;
         Put ("full", Value);
      end if;
   end Produce;

   procedure Consume is
      Value : Integer := 0;
      Done  : Boolean := False;
   begin
      Remove (Queue, Value, Done);
      if Done then
         Put ("taken", Value);
      else
         Missed := Missed + 1;
      end if;
   end Consume;

   --  Squares come in one a round, and two rounds of three take one out.
   procedure Run is
   begin
      Clear (Queue);
      Consume;
      for Round in 1 .. Rounds loop
         Produce (Round * Round);
         if Round mod 3 /= 0 then
            Consume;
         elsif Round mod 2 = 0 then
            Produce (-Round);
         end if;
      end loop;
      Put ("waiting", Queue.Count);
      while Queue.Count > 0 loop
         Consume;
      end loop;
      Put ("refused", Refused);
      Put ("missed", Missed);
   end Run;
end App;
with App;
procedure Main is
begin
   App.Run;
end Main;
