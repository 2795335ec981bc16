{module, race}.  %% version = 0

{exports, [{greet,2},{main,0},{module_info,0},{module_info,1}]}.

{attributes, []}.

{labels, 11}.


{function, main, 0, 2}.
  {label,1}.
    {line,[{location,"race.erl",5}]}.
    {func_info,{atom,race},{atom,main},0}.
  {label,2}.
    {allocate_heap,0,2,0}.
    {bif,self,{f,0},[],{x,0}}.
    {put_list,{x,0},{literal,[one]},{x,2}}.
    {move,{atom,greet},{x,1}}.
    {move,{atom,race},{x,0}}.
    {line,[{location,"race.erl",6}]}.
    {call_ext,3,{extfunc,erlang,spawn,3}}.
    {test_heap,2,0}.
    {bif,self,{f,0},[],{x,0}}.
    {put_list,{x,0},{literal,[two]},{x,2}}.
    {move,{atom,greet},{x,1}}.
    {move,{atom,race},{x,0}}.
    {line,[{location,"race.erl",7}]}.
    {call_ext,3,{extfunc,erlang,spawn,3}}.
  {label,3}.
    {loop_rec,{f,4},{x,0}}.
    remove_message.
    {line,[{location,"race.erl",8}]}.
    {call_ext_last,1,{extfunc,erlang,display,1},0}.
  {label,4}.
    {wait,{f,3}}.


{function, greet, 2, 6}.
  {label,5}.
    {line,[{location,"race.erl",10}]}.
    {func_info,{atom,race},{atom,greet},2}.
  {label,6}.
    {allocate,0,2}.
    {line,[{location,"race.erl",11}]}.
    send.
    {deallocate,0}.
    return.


{function, module_info, 0, 8}.
  {label,7}.
    {line,[]}.
    {func_info,{atom,race},{atom,module_info},0}.
  {label,8}.
    {move,{atom,race},{x,0}}.
    {call_ext_only,1,{extfunc,erlang,get_module_info,1}}.


{function, module_info, 1, 10}.
  {label,9}.
    {line,[]}.
    {func_info,{atom,race},{atom,module_info},1}.
  {label,10}.
    {move,{x,0},{x,1}}.
    {move,{atom,race},{x,0}}.
    {call_ext_only,2,{extfunc,erlang,get_module_info,2}}.
