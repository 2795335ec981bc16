{module, poll_waits}.  %% version = 0

{exports, [{main,0},{module_info,0},{module_info,1},{tell,3}]}.

{attributes, []}.

{labels, 15}.


{function, main, 0, 2}.
  {label,1}.
    {line,[{location,"poll_waits.erl",5}]}.
    {func_info,{atom,poll_waits},{atom,main},0}.
  {label,2}.
    {allocate_heap,1,2,0}.
    {bif,self,{f,0},[],{y,0}}.
    {put_list,{y,0},{literal,[a,1]},{x,2}}.
    {move,{atom,tell},{x,1}}.
    {move,{atom,poll_waits},{x,0}}.
    {line,[{location,"poll_waits.erl",7}]}.
    {call_ext,3,{extfunc,erlang,spawn,3}}.
    {test_heap,2,0}.
    {put_list,{y,0},{literal,[b,3]},{x,2}}.
    {move,{atom,tell},{x,1}}.
    {trim,1,0}.
    {move,{atom,poll_waits},{x,0}}.
    {line,[{location,"poll_waits.erl",8}]}.
    {call_ext,3,{extfunc,erlang,spawn,3}}.
    {move,{integer,0},{x,1}}.
    {move,{integer,2},{x,0}}.
    {call_last,2,{f,4},0}. % collect/2


{function, collect, 2, 4}.
  {label,3}.
    {line,[{location,"poll_waits.erl",11}]}.
    {func_info,{atom,poll_waits},{atom,collect},2}.
  {label,4}.
    {'%',{var_info,{x,0},[{type,{t_integer,any}}]}}.
    {'%',{var_info,{x,1},[{type,{t_integer,any}}]}}.
    {test,is_eq_exact,{f,5},[{tr,{x,0},{t_integer,any}},{integer,0}]}.
    {move,{atom,ok},{x,0}}.
    return.
  {label,5}.
    {allocate,2,2}.
    {move,{x,1},{y,0}}.
    {move,{x,0},{y,1}}.
  {label,6}.
    {loop_rec,{f,7},{x,0}}.
    {test_heap,3,1}.
    remove_message.
    {put_tuple2,{x,0},{list,[{x,0},{y,0}]}}.
    {trim,1,1}.
    {line,[{location,"poll_waits.erl",14}]}.
    {call_ext,1,{extfunc,erlang,display,1}}.
    {gc_bif,'-',{f,0},0,[{tr,{y,0},{t_integer,any}},{integer,1}],{x,0}}.
    {move,{integer,0},{x,1}}.
    {call_last,2,{f,4},1}. % collect/2
  {label,7}.
    {wait_timeout,{f,6},{integer,1}}.
    timeout.
    {line,[{location,"poll_waits.erl",16}]}.
    {gc_bif,'+',{f,0},0,[{tr,{y,0},{t_integer,any}},{integer,1}],{x,1}}.
    {move,{y,1},{x,0}}.
    {call_last,2,{f,4},2}. % collect/2


{function, tell, 3, 9}.
  {label,8}.
    {line,[{location,"poll_waits.erl",19}]}.
    {func_info,{atom,poll_waits},{atom,tell},3}.
  {label,9}.
    {allocate,2,3}.
    {move,{x,1},{y,0}}.
    {move,{x,0},{y,1}}.
  {label,10}.
    {wait_timeout,{f,10},{x,2}}.
    timeout.
    {move,{y,0},{x,1}}.
    {move,{y,1},{x,0}}.
    send.
    {deallocate,2}.
    return.


{function, module_info, 0, 12}.
  {label,11}.
    {line,[]}.
    {func_info,{atom,poll_waits},{atom,module_info},0}.
  {label,12}.
    {move,{atom,poll_waits},{x,0}}.
    {call_ext_only,1,{extfunc,erlang,get_module_info,1}}.


{function, module_info, 1, 14}.
  {label,13}.
    {line,[]}.
    {func_info,{atom,poll_waits},{atom,module_info},1}.
  {label,14}.
    {move,{x,0},{x,1}}.
    {move,{atom,poll_waits},{x,0}}.
    {call_ext_only,2,{extfunc,erlang,get_module_info,2}}.
