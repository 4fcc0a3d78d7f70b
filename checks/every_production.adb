pragma Profile (Ravenscar);
pragma Partition_Elaboration_Policy (Sequential);
with Ada.Real_Time; use Ada.Real_Time;
with Control_IO; use Control_IO;
package App is
   type Small is range -1 .. 2 * 3;
   type Row is array (1 .. 2) of Small;
   type Map is array (Small) of Integer;
   type Pair is record First : Integer; Second : Boolean; end record;
   subtype Part is Integer range 0 .. 9;
   subtype Whole is Integer;
   Limit : constant Integer := 4;
   Count : Integer;
   Lost : exception;
   procedure Run (A : in Integer; B : out Row; C : in out Pair; D : Integer);
   function Twice (N : Integer) return Integer;
   procedure Stop;
   task Worker with Priority => 3;
   task Server is entry Get; end Server;
   protected Store with Priority => 5 is
      procedure Give (V : Integer) with Attach_Handler => 1;
      function Held return Integer;
      entry Take (V : out Integer);
   private
      Full : Boolean := False;
      Value : Integer;
   end Store;
end App;
package body App is
   Hidden : Integer := 1;
   procedure Local;
   procedure Run (A : in Integer; B : out Row; C : in out Pair; D : Integer) is
      X : Integer := A;
      task Inner;
      protected Gate is end Gate;
   begin
      null;
      X := (if X > 1 and then A /= 2 then -X mod 3 elsif X = 0 then abs X else +X * 2 - 1);
      B (1) := Twice (X) / 2;
      C.Second := not (X <= 1 or else X >= 5) xor True;
      Put ("label", Small'Last rem 2);
      Stop;
      if X < 1 then null; elsif X = 2 then exit; else return; end if;
      case X is when 1 | 2 => null; when others => raise Lost; end case;
      loop exit when X = 1; end loop;
      while X > 0 and X < 9 and not (X = 3 or X = 5) loop X := X - 1; end loop;
      for I in reverse 1 .. 3 loop raise; end loop;
      for J in X .. A loop return X; end loop;
      declare
         Y : Integer;
      begin
         delay 1;
         delay until Clock + Milliseconds (1);
      exception
         when Lost | Constraint_Error => null;
         when others => null;
      end;
      begin null; end;
      abort Inner;
      requeue Take;
      requeue Store.Take;
      accept Get;
      select when end or ; delay end select;
   exception
      when others => null;
   end Run;
   function Twice (N : Integer) return Integer is begin return N * 2; end Twice;
   procedure Stop is begin null; end Stop;
   task body Worker is begin null; end Worker;
   protected body Store is
      procedure Give (V : Integer) is begin Value := V; end Give;
      function Held return Integer is begin return Value; end Held;
      entry Take (V : out Integer) when Full is begin V := Value; end Take;
   end Store;
end App;
with App;
procedure Main with Priority => 2 is
begin
   null;
   App.Stop;
end Main;
