--  An exception that nothing handles ends the run, from calls within loops and blocks; lines that are written before it stay.
pragma Profile (Ravenscar);
pragma Partition_Elaboration_Policy (Sequential);
with Control_IO; use Control_IO;
package App is
   subtype Part is Integer range 1 .. 5;
   procedure Run;
   procedure Not_Reached;
end App;
package body App is
   function Share (V : Integer; Among : Integer) return Integer is
   begin
      return V / Among;
   end Share;

   procedure Give (V : in out Part; Among : Integer) is
   begin
      for I in reverse 0 .. V loop
         declare
            Got : Integer := Share (V, Among - I);
         begin
            Put ("got", Got);
            V := Got;
         end;
      end loop;
   end Give;

   procedure Run is
      V : Part := 5;
   begin
      Put ("before", V);
      Give (V, 6);
      Put ("between", V);
      Give (V, 1);
      Put ("behind", V);
   end Run;

   procedure Not_Reached is
   begin
      Put ("not_reached", 0);
   end Not_Reached;
end App;
with App;
procedure Main with Priority => 3 is
begin
   App.Run;
   App.Not_Reached;
end Main;
