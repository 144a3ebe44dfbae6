<!DOCTYPE qgis PUBLIC 'http://mrcc.com/qgis.dtd' 'SYSTEM'>
<qgis version="3.22" styleCategories="Symbology">
 <renderer-v2 type="RuleRenderer" symbollevels="0" enableorderby="0" forceraster="0">
  <rules key="{root}">
   <rule key="{none}" symbol="0" label="without a road" filter="&quot;edge&quot; IS NULL"/>
   <rule key="{far}" symbol="1" label="more than 30 m from its road" filter="&quot;distance&quot; > 30"/>
   <rule key="{doubt}" symbol="2" label="in doubt: another road is nearly as likely" filter="&quot;edge&quot; IS NOT NULL AND &quot;distance&quot; &lt;= 30 AND coalesce(attribute('margin'), 3000) &lt; 3000"/>
   <rule key="{on}" symbol="3" label="with its road" filter="&quot;edge&quot; IS NOT NULL AND &quot;distance&quot; &lt;= 30 AND coalesce(attribute('margin'), 3000) >= 3000"/>
  </rules>
  <symbols>
   <symbol name="0" type="marker" alpha="1" clip_to_extent="1" force_rhr="0">
    <layer class="SimpleMarker" enabled="1" locked="0" pass="0">
     <Option type="Map">
      <Option name="color" type="QString" value="255,255,255,0"/>
      <Option name="name" type="QString" value="circle"/>
      <Option name="outline_color" type="QString" value="163,0,0,255"/>
      <Option name="outline_style" type="QString" value="solid"/>
      <Option name="outline_width" type="QString" value="0.5"/>
      <Option name="size" type="QString" value="2.4"/>
     </Option>
     <prop k="color" v="255,255,255,0"/>
     <prop k="name" v="circle"/>
     <prop k="outline_color" v="163,0,0,255"/>
     <prop k="outline_style" v="solid"/>
     <prop k="outline_width" v="0.5"/>
     <prop k="size" v="2.4"/>
    </layer>
   </symbol>
   <symbol name="1" type="marker" alpha="1" clip_to_extent="1" force_rhr="0">
    <layer class="SimpleMarker" enabled="1" locked="0" pass="0">
     <Option type="Map">
      <Option name="color" type="QString" value="230,159,0,255"/>
      <Option name="name" type="QString" value="circle"/>
      <Option name="outline_color" type="QString" value="27,31,36,255"/>
      <Option name="outline_style" type="QString" value="solid"/>
      <Option name="outline_width" type="QString" value="0.2"/>
      <Option name="size" type="QString" value="2.4"/>
     </Option>
     <prop k="color" v="230,159,0,255"/>
     <prop k="name" v="circle"/>
     <prop k="outline_color" v="27,31,36,255"/>
     <prop k="outline_style" v="solid"/>
     <prop k="outline_width" v="0.2"/>
     <prop k="size" v="2.4"/>
    </layer>
   </symbol>
   <symbol name="2" type="marker" alpha="1" clip_to_extent="1" force_rhr="0">
    <layer class="SimpleMarker" enabled="1" locked="0" pass="0">
     <Option type="Map">
      <Option name="color" type="QString" value="255,212,59,255"/>
      <Option name="name" type="QString" value="diamond"/>
      <Option name="outline_color" type="QString" value="27,31,36,255"/>
      <Option name="outline_style" type="QString" value="solid"/>
      <Option name="outline_width" type="QString" value="0.2"/>
      <Option name="size" type="QString" value="2.8"/>
     </Option>
     <prop k="color" v="255,212,59,255"/>
     <prop k="name" v="diamond"/>
     <prop k="outline_color" v="27,31,36,255"/>
     <prop k="outline_style" v="solid"/>
     <prop k="outline_width" v="0.2"/>
     <prop k="size" v="2.8"/>
    </layer>
   </symbol>
   <symbol name="3" type="marker" alpha="1" clip_to_extent="1" force_rhr="0">
    <layer class="SimpleMarker" enabled="1" locked="0" pass="0">
     <Option type="Map">
      <Option name="color" type="QString" value="0,114,178,255"/>
      <Option name="name" type="QString" value="circle"/>
      <Option name="outline_color" type="QString" value="27,31,36,255"/>
      <Option name="outline_style" type="QString" value="solid"/>
      <Option name="outline_width" type="QString" value="0.1"/>
      <Option name="size" type="QString" value="1.6"/>
     </Option>
     <prop k="color" v="0,114,178,255"/>
     <prop k="name" v="circle"/>
     <prop k="outline_color" v="27,31,36,255"/>
     <prop k="outline_style" v="solid"/>
     <prop k="outline_width" v="0.1"/>
     <prop k="size" v="1.6"/>
    </layer>
   </symbol>
  </symbols>
 </renderer-v2>
</qgis>
