--  Statements and expressions nested to 40 levels.
pragma Profile (Ravenscar);
pragma Partition_Elaboration_Policy (Sequential);
with Control_IO; use Control_IO;
package App is
   procedure Run;
end App;
package body App is
   N : Integer := 0;

   procedure Statements is
   begin
      for L0 in 1 .. 2 loop
       if N >= 0 then
        case L0 is
        when 2 =>
         declare
          D3 : Integer := 3;
         begin
          loop
           while N < 100 loop
            for L6 in 1 .. 2 loop
             if N >= 0 then
              case L6 is
              when 2 =>
               declare
                D9 : Integer := 9;
               begin
                loop
                 while N < 100 loop
                  for L12 in 1 .. 2 loop
                   if N >= 0 then
                    case L12 is
                    when 2 =>
                     declare
                      D15 : Integer := 15;
                     begin
                      loop
                       while N < 100 loop
                        for L18 in 1 .. 2 loop
                         if N >= 0 then
                          case L18 is
                          when 2 =>
                           declare
                            D21 : Integer := 21;
                           begin
                            loop
                             while N < 100 loop
                              for L24 in 1 .. 2 loop
                               if N >= 0 then
                                case L24 is
                                when 2 =>
                                 declare
                                  D27 : Integer := 27;
                                 begin
                                  loop
                                   while N < 100 loop
                                    for L30 in 1 .. 2 loop
                                     if N >= 0 then
                                      case L30 is
                                      when 2 =>
                                       declare
                                        D33 : Integer := 33;
                                       begin
                                        loop
                                         while N < 100 loop
                                          for L36 in 1 .. 2 loop
                                           if N >= 0 then
                                            case L36 is
                                            when 2 =>
                                             Put ("inside", N + D3 + D33);
                                            when others => N := N + 1;
                                            end case;
                                           else
                                              Put ("else", 37);
                                           end if;
                                          end loop;
                                         exit when D33 > 0;
                                         end loop;
                                        exit;
                                        end loop;
                                       end;
                                      when others => N := N + 1;
                                      end case;
                                     else
                                        Put ("else", 31);
                                     end if;
                                    end loop;
                                   exit when D27 > 0;
                                   end loop;
                                  exit;
                                  end loop;
                                 end;
                                when others => N := N + 1;
                                end case;
                               else
                                  Put ("else", 25);
                               end if;
                              end loop;
                             exit when D21 > 0;
                             end loop;
                            exit;
                            end loop;
                           end;
                          when others => N := N + 1;
                          end case;
                         else
                            Put ("else", 19);
                         end if;
                        end loop;
                       exit when D15 > 0;
                       end loop;
                      exit;
                      end loop;
                     end;
                    when others => N := N + 1;
                    end case;
                   else
                      Put ("else", 13);
                   end if;
                  end loop;
                 exit when D9 > 0;
                 end loop;
                exit;
                end loop;
               end;
              when others => N := N + 1;
              end case;
             else
                Put ("else", 7);
             end if;
            end loop;
           exit when D3 > 0;
           end loop;
          exit;
          end loop;
         end;
        when others => N := N + 1;
        end case;
       else
          Put ("else", 1);
       end if;
      end loop;
   end Statements;

   procedure Expressions is
   begin
      Put ("sum", (29 * 2 + ((27 * 2 + (if N > 26 then 26 else ((24 * 2 + (if N > 23 then 23 else ((21 * 2 + (if N > 20 then 20 else ((18 *
           2 + (if N > 17 then 17 else ((15 * 2 + (if N > 14 then 14 else ((12 * 2 + (if N > 11 then 11 else ((9 * 2 + (if N > 8 then 8 else
           ((6 * 2 + (if N > 5 then 5 else ((3 * 2 + (if N > 2 then 2 else ((0 * 2 + N) - 1))) - 4))) - 7))) - 10))) - 13))) - 16))) - 19)))
           - 22))) - 25))) - 28)));
   end Expressions;

   procedure Run is
   begin
      Statements;
      Expressions;
      Put ("n", N);
   end Run;
end App;
with App;
procedure Main is
begin
   App.Run;
end Main;
