{module, store_client}.  %% version = 0

{exports, [{client,3},{main,0},{module_info,0},{module_info,1}]}.

{attributes, []}.

{labels, 18}.


{function, main, 0, 2}.
  {label,1}.
    {line,[{location,"store_client.erl",5}]}.
    {func_info,{atom,store_client},{atom,main},0}.
  {label,2}.
    {allocate,1,0}.
    {init_yregs,{list,[{y,0}]}}.
    {line,[{location,"store_client.erl",6}]}.
    {call_ext,0,{extfunc,store,new,0}}.
    {bif,self,{f,0},[],{x,1}}.
    {move,{x,0},{y,0}}.
    {move,{x,0},{x,2}}.
    {move,{literal,[a,b]},{x,0}}.
    {line,[{location,"store_client.erl",8}]}.
    {call,3,{f,16}}. % '-main/0-lc$^0/1-0-'/3
    {'%',{var_info,{x,0},[{type,nil}]}}.
    {move,{literal,[a,b]},{x,0}}.
    {line,[{location,"store_client.erl",9}]}.
    {call,1,{f,10}}. % '-main/0-lc$^1/1-1-'/1
    {'%',{var_info,{x,0},[{type,nil}]}}.
    {move,{y,0},{x,0}}.
    {trim,1,0}.
    {line,[{location,"store_client.erl",10}]}.
    {call_ext,1,{extfunc,store,stop,1}}.
    {call_ext_last,1,{extfunc,erlang,display,1},0}.


{function, client, 3, 4}.
  {label,3}.
    {line,[{location,"store_client.erl",12}]}.
    {func_info,{atom,store_client},{atom,client},3}.
  {label,4}.
    {allocate,3,3}.
    {move,{x,2},{y,0}}.
    {move,{x,1},{y,1}}.
    {move,{x,0},{y,2}}.
    {move,{x,1},{x,0}}.
    {move,{atom,key},{x,1}}.
    {line,[{location,"store_client.erl",13}]}.
    {call_ext,3,{extfunc,store,put,3}}.
    {move,{atom,key},{x,1}}.
    {move,{y,1},{x,0}}.
    {move,{y,0},{y,1}}.
    {trim,1,2}.
    {line,[{location,"store_client.erl",14}]}.
    {call_ext,2,{extfunc,store,get,2}}.
    {test_heap,3,1}.
    {put_tuple2,{x,1},{list,[{y,0},{x,0}]}}.
    {move,{y,1},{x,0}}.
    send.
    {deallocate,2}.
    return.


{function, module_info, 0, 6}.
  {label,5}.
    {line,[]}.
    {func_info,{atom,store_client},{atom,module_info},0}.
  {label,6}.
    {move,{atom,store_client},{x,0}}.
    {call_ext_only,1,{extfunc,erlang,get_module_info,1}}.


{function, module_info, 1, 8}.
  {label,7}.
    {line,[]}.
    {func_info,{atom,store_client},{atom,module_info},1}.
  {label,8}.
    {move,{x,0},{x,1}}.
    {move,{atom,store_client},{x,0}}.
    {call_ext_only,2,{extfunc,erlang,get_module_info,2}}.


{function, '-main/0-lc$^1/1-1-', 1, 10}.
  {label,9}.
    {line,[{location,"store_client.erl",9}]}.
    {func_info,{atom,store_client},{atom,'-main/0-lc$^1/1-1-'},1}.
  {label,10}.
    {'%',{var_info,{x,0},[{type,{t_list,{t_atom,[a,b]},nil}}]}}.
    {test,is_nonempty_list,{f,14},[{x,0}]}.
    {allocate,2,1}.
    {get_list,{x,0},{y,1},{y,0}}.
  {label,11}.
    {loop_rec,{f,13},{x,0}}.
    {test,is_tuple,{f,12},[{x,0}]}.
    {test,test_arity,{f,12},[{x,0},2]}.
    {get_tuple_element,{x,0},0,{x,1}}.
    {test,is_eq_exact,{f,12},[{x,1},{tr,{y,1},{t_atom,[a,b]}}]}.
    {test_heap,3,1}.
    {get_tuple_element,{x,0},1,{x,0}}.
    remove_message.
    {put_tuple2,{x,0},{list,[{y,1},{x,0}]}}.
    {move,{y,0},{y,1}}.
    {trim,1,1}.
    {call_ext,1,{extfunc,erlang,display,1}}.
    {move,{y,0},{x,0}}.
    {call_last,1,{f,10},1}. % '-main/0-lc$^1/1-1-'/1
  {label,12}.
    {loop_rec_end,{f,11}}.
  {label,13}.
    {wait,{f,11}}.
  {label,14}.
    return.


{function, '-main/0-lc$^0/1-0-', 3, 16}.
  {label,15}.
    {line,[{location,"store_client.erl",8}]}.
    {func_info,{atom,store_client},{atom,'-main/0-lc$^0/1-0-'},3}.
  {label,16}.
    {'%',{var_info,{x,0},[{type,{t_list,{t_atom,[a,b]},nil}}]}}.
    {test,is_nonempty_list,{f,17},[{x,0}]}.
    {allocate_heap,3,6,3}.
    {move,{x,2},{y,1}}.
    {move,{x,1},{y,2}}.
    {get_list,{x,0},{x,0},{y,0}}.
    {put_list,{x,0},nil,{x,0}}.
    {put_list,{x,2},{x,0},{x,0}}.
    {put_list,{x,1},{x,0},{x,2}}.
    {move,{atom,client},{x,1}}.
    {move,{atom,store_client},{x,0}}.
    {call_ext,3,{extfunc,erlang,spawn_link,3}}.
    {move,{y,1},{x,2}}.
    {move,{y,2},{x,1}}.
    {move,{y,0},{x,0}}.
    {call_last,3,{f,16},3}. % '-main/0-lc$^0/1-0-'/3
  {label,17}.
    return.
